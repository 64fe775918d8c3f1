#include "keys.h"
#include "json.h"
#include "near.h"
#include "say.h"
#include <stdio.h>
#include <string.h>

/* Each key, with the object that has it (the key at which it, or the list that it is in, is) and what its value must be. ci/keys compares
 * this table with that of the launcher, tools/planning/keys.py, and with the sources of the library. */
struct key {
    const char *object;
    const char *name;
    const char *wants; /* NULL: the library ignores the key, and others read it */
};

static const struct key keys[] = {
    {"", "DeviceIdentity", "an object"},
    {"", "DeviceAccessPointItem", "an object"},
    {"", "ModuleItem", "a list of objects"},
    {"", "Project", "an object"},
    {"DeviceIdentity", "VendorID", "a whole number from 0 to 65,535"},
    {"DeviceIdentity", "DeviceID", "a whole number from 0 to 65,535"},
    {"DeviceAccessPointItem", "ModuleIdentNumber", "a whole number from 1 to 4,294,967,295"},
    {"DeviceAccessPointItem", "PhysicalSlots", "a list of whole numbers from 0 to 32,767"},
    {"DeviceAccessPointItem", "DNS_CompatibleName", "a string"},
    {"DeviceAccessPointItem", "MinDeviceInterval", "a whole number from 1 to 65,536"},
    {"DeviceAccessPointItem", "VirtualSubmoduleItem", "a list of objects"},
    {"DeviceAccessPointItem", "ModuleItemRef", "a list of objects"},
    {"DeviceAccessPointItem", "MultipleWriteSupported", "true or false"},
    {"ModuleItemRef", "ModuleItemTarget", "a string"},
    {"ModuleItemRef", "AllowedInSlots", "a list of whole numbers"},
    {"ModuleItemRef", "FixedInSlots", "a list of whole numbers"},
    {"ModuleItem", "ID", "a string, each once"},
    {"ModuleItem", "ModuleIdentNumber", "a whole number from 1 to 4,294,967,295"},
    {"ModuleItem", "VirtualSubmoduleItem", "a list of objects"},
    {"VirtualSubmoduleItem", "Subslot", "a whole number from 1 to 36,863, each once in its list"},
    {"VirtualSubmoduleItem", "SubmoduleIdentNumber", "a whole number from 0 to 4,294,967,295"},
    {"VirtualSubmoduleItem", "IOData", "an object"},
    {"VirtualSubmoduleItem", "ParameterRecordDataItem", "a list of objects"},
    {"IOData", "Input", "a list of objects"},
    {"IOData", "Output", "a list of objects"},
    {"Input", "DataType", "Unsigned8, Integer8, Unsigned16, Integer16, Unsigned32, Integer32, Float32 or OctetString"},
    {"Input", "Length", "a whole number from 1 to 1,440"},
    {"Output", "DataType", "Unsigned8, Integer8, Unsigned16, Integer16, Unsigned32, Integer32, Float32 or OctetString"},
    {"Output", "Length", "a whole number from 1 to 1,440"},
    {"ParameterRecordDataItem", "Index", "a whole number from 0 to 32,767, each once in its list"},
    {"ParameterRecordDataItem", "Length", "a whole number from 1 to 64"},
    {"Project", "NameOfStation", "a string"},
    {"Project", "IPAddress", "a string"},
    {"Project", "SubnetMask", "a string"},
    {"Project", "Gateway", "a string"},
    {"Project", "Controller", "an object"},
    {"Project", "SendClockFactor", "a whole number from 1 to 128"},
    {"Project", "ReductionRatio", "a whole number from 1 to 512, with SendClockFactor times ReductionRatio at least MinDeviceInterval"},
    {"Project", "DataHoldFactor", "a whole number from 1 to 7,680"},
    {"Project", "Slots", "a list of objects"},
    {"Project", "ContinueOnRefusedRecord", "true or false"},
    {"Project", "ReleaseOnRefusedRecord", "true or false"},
    {"Project", "ParametersAfterPlug", "true or false"},
    {"Project", "PersistentStart", "true or false"},
    {"Controller", "NameOfStation", "a string"},
    {"Controller", "MAC", "a string"},
    {"Controller", "IPAddress", "a string"},
    {"Controller", "Identity", "an object"},
    {"Identity", "VendorID", "a whole number from 0 to 65,535"},
    {"Identity", "DeviceID", "a whole number from 0 to 65,535"},
    {"Identity", "DNS_CompatibleName", "a string of 1 to 25 characters from space to ~"},
    {"Slots", "Slot", "a whole number"},
    {"Slots", "ModuleItemTarget", "a string"},
    {"Slots", "Records", "a list of objects"},
    {"Records", "Subslot", "a whole number from 1 to 36,863"},
    {"Records", "Index", "a whole number from 0 to 32,767"},
    {"Records", "Data", "a string of two hex digits for each octet"},
    {"DeviceAccessPointItem", "Name", NULL},
    {"ModuleItem", "Name", NULL},
    {"VirtualSubmoduleItem", "Name", NULL},
    {"Project", "Signals", NULL},
    {"", "ChannelDiagList", NULL},
};
#define KEYS (sizeof keys / sizeof keys[0])

/* A list of objects, or of numbers, and what each entry must be. */
static const struct {
    const char *list, *entry;
} entries[] = {{"a list of objects", "an object"}, {"a list of whole numbers", "a whole number"}};

/* The longest key that is shown, and that another one is looked for. */
#define LONGEST JSON_TEXT
/* More keys than these are only counted. */
#define MOST 16

/* --- What a value must be --- */

/* The last key of a place and the key before it, or "". Returns whether the place is an entry of a list. */
static int split(const char *place, char object[LONGEST + 1], char name[LONGEST + 1])
{
    int is_entry = 0;
    object[0] = name[0] = '\0';
    while (*place != '\0') {
        size_t length = strcspn(place, ".[");
        strcpy(object, name);
        snprintf(name, LONGEST + 1, "%.*s", (int)length, place);
        place += length;
        is_entry = *place == '[';
        place += strcspn(place, ".");
        place += *place == '.';
    }
    return is_entry;
}

const char *keys_wants(const char *place, char words[KEYS_WANTS])
{
    char object[LONGEST + 1], name[LONGEST + 1];
    int is_entry = split(place, object, name);
    const char *wants = "an object";
    for (size_t i = 0; i < KEYS; i++)
        if (strcmp(keys[i].object, object) == 0 && strcmp(keys[i].name, name) == 0 && keys[i].wants != NULL)
            wants = keys[i].wants;
    snprintf(words, KEYS_WANTS, "%s", wants);
    for (size_t i = 0; is_entry && i < sizeof entries / sizeof entries[0]; i++)
        if (strncmp(wants, entries[i].list, strlen(entries[i].list)) == 0)
            snprintf(words, KEYS_WANTS, "%s%s", entries[i].entry, wants + strlen(entries[i].list));
    return words;
}

/* --- The nearest key --- */

/* The key of an object, or of any without one, that is meant, if one is near. */
static const char *nearest(const char *object, const char *name)
{
    struct near near = {.word = name};
    for (size_t i = 0; i < KEYS; i++)
        if (object == NULL || strcmp(keys[i].object, object) == 0)
            near_try(&near, keys[i].name);
    return near.found;
}

/* The object that has this key, or NULL. */
static const char *holder_of(const char *name)
{
    for (size_t i = 0; i < KEYS; i++)
        if (strcmp(keys[i].name, name) == 0)
            return keys[i].object[0] == '\0' ? "the whole catalogue" : keys[i].object;
    return NULL;
}

/* --- The keys of a catalogue --- */

struct unknown {
    const char *object;
    char name[LONGEST + 1];
};

struct walk {
    const char *file;
    struct json json;
    char place[256];
    unsigned count; /* of unknown keys, the first ones once for an object */
    struct unknown found[MOST];
};

static void warn(const struct walk *walk, const char *object, const char *name)
{
    const char *meant = nearest(object, name), *holder = meant == NULL ? holder_of(name) : NULL;
    if (meant == NULL && holder == NULL)
        meant = nearest(NULL, name);
    if (holder != NULL)
        say("warning: '%s': %s is ignored: %s is a key of %s", walk->file, walk->place, name, holder);
    else if (meant != NULL)
        say("warning: '%s': %s is not a key of a catalogue; did you mean %s?", walk->file, walk->place, meant);
    else
        say("warning: '%s': %s is not a key of a catalogue, and is ignored", walk->file, walk->place);
}

/* Notes an unknown key, and warns of it if no object of its kind had it before. */
static void note(struct walk *walk, const char *object, const char *name)
{
    for (unsigned i = 0; i < walk->count && i < MOST; i++)
        if (strcmp(walk->found[i].object, object) == 0 && strcmp(walk->found[i].name, name) == 0)
            return;
    if (walk->count < MOST) {
        walk->found[walk->count].object = object;
        strcpy(walk->found[walk->count].name, name);
        warn(walk, object, name);
    }
    walk->count++;
}

static void look_into(struct walk *walk, const char *object);

/* Whether an object, or each of a list, at this key has keys of its own. Returns its name in the table, or NULL. */
static const char *object_at(const char *name)
{
    for (size_t i = 0; i < KEYS; i++)
        if (strcmp(keys[i].object, name) == 0)
            return keys[i].object;
    return NULL;
}

/* Looks into an object, or into each of a list. */
static void look_at(struct walk *walk, const char *object)
{
    size_t before = strlen(walk->place);
    if (json_next(&walk->json) == '{') {
        look_into(walk, object);
        return;
    }
    if (!json_take(&walk->json, '[')) {
        json_pass(&walk->json);
        return;
    }
    for (unsigned i = 0; walk->json.at < walk->json.end && json_next(&walk->json) != ']'; i++) {
        snprintf(walk->place + before, sizeof walk->place - before, "[%u]", i);
        if (json_next(&walk->json) == '{')
            look_into(walk, object);
        else
            json_pass(&walk->json);
        json_take(&walk->json, ',');
    }
    walk->place[before] = '\0';
    json_take(&walk->json, ']');
}

/* Looks at each key of an object. Its depth is that of the table. */
static void look_into(struct walk *walk, const char *object)
{
    size_t before = strlen(walk->place);
    struct json_text key;
    const char *name = key.octets;
    json_take(&walk->json, '{');
    while (walk->json.at < walk->json.end && json_next(&walk->json) == '"') {
        int is_known;
        json_string(&walk->json, &key);
        is_known = key.has_escape; /* no key has one */
        json_take(&walk->json, ':');
        snprintf(walk->place + before, sizeof walk->place - before, "%s%s", before == 0 ? "" : ".", name);
        for (size_t i = 0; i < KEYS; i++)
            is_known |= strcmp(keys[i].object, object) == 0 && strcmp(keys[i].name, name) == 0;
        if (!is_known)
            note(walk, object, name);
        if (is_known && object_at(name) != NULL)
            look_at(walk, object_at(name));
        else
            json_pass(&walk->json);
        walk->place[before] = '\0';
        json_take(&walk->json, ',');
    }
    json_take(&walk->json, '}');
}

void keys_warn(const char *file, const uint8_t *text, size_t length)
{
    static struct walk walk;
    walk = (struct walk){.file = file, .json = {(const char *)text, (const char *)text + length}};
    look_into(&walk, "");
    if (walk.count > MOST)
        say("warning: '%s': further keys are not keys of a catalogue, and are ignored", file);
}
