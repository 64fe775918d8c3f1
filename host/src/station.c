#include "station.h"
#include "json_fault.h"
#include "keys.h"
#include "say.h"
#include "slots.h"
#include "words.h"
#include <errno.h>
#include <stdio.h>
#include <stdlib.h>
#include <string.h>

/* A frame is newer than the last one that was accepted if its CycleCounter is at most this far ahead, modulo the other number. */
#define NEWEST 61440u
#define ROUND 65536u
#define INTERVAL "the interval, SendClockFactor times ReductionRatio, is %u units, and %u is the most at which each frame counts. "
#define ENDS "the relation ends as no data is held any longer (cause 4)"

/* A catalogue has some thousand octets; a longer file is refused. */
#define CATALOGUE_MOST (4u << 20)

void station_demo(pn_station *station)
{
    static const pn_station demo = {
        .vendor_id = 0x0123, .device_id = 0x0456, .instance = 1, .station_type_length = 7, .station_type = "pn-demo",
        .order_id = "                    ", .serial_number = "                ", .software_revision = {'V', 0, 0, 0}, .module_count = 3,
        .modules = {{.ident = 1, .slot = 0, .submodule_count = 3,
                     .submodules = {{.ident = 1, .subslot = 1}, {.ident = 2, .subslot = 0x8000}, {.ident = 3, .subslot = 0x8001}}},
                    {.ident = 16, .slot = 1, .submodule_count = 1, .submodules = {{.ident = 16, .subslot = 1, .input = 2}}},
                    {.ident = 32, .slot = 2, .submodule_count = 1, .submodules = {{.ident = 32, .subslot = 1, .output = 2}}}}};
    *station = demo;
}

static uint8_t *read_whole(const char *path, size_t *length)
{
    FILE *file = fopen(path, "rb");
    uint8_t *text;
    if (file == NULL)
        fail(STATUS_NO_INPUT, "the catalogue '%s' cannot be opened: %s", path, strerror(errno));
    text = malloc(CATALOGUE_MOST + 1);
    if (text == NULL)
        fail(STATUS_SYSTEM, "out of memory");
    *length = fread(text, 1, CATALOGUE_MOST + 1, file);
    if (ferror(file))
        fail(STATUS_INPUT, "the catalogue '%s' cannot be read: %s", path, strerror(errno));
    if (*length > CATALOGUE_MOST)
        fail(STATUS_DATA, "'%s' is not a catalogue: it has more than %u octets", path, CATALOGUE_MOST);
    fclose(file);
    return text;
}

static const char *fault_words(uint32_t fault)
{
    static const char *const words[] = {
        [PN_PLAN_JSON] = "the text is no JSON",
        [PN_PLAN_MISSING_KEY] = "a key is missing",
        [PN_PLAN_WRONG_KIND] = "the catalogue must be an object",
        [PN_PLAN_NOT_ALLOWED] = "a module of Slots is not allowed in its slot (AllowedInSlots, FixedInSlots, PhysicalSlots)",
        [PN_PLAN_TOO_MANY] = "there are too many slots, submodules or records (slots 0 to 15, 4 submodules a slot, 32 records)",
        [PN_PLAN_FRAME_LONG] = "a cyclic frame would hold more than 1,440 octets (IOData of all submodules)",
        [PN_PLAN_CONNECT_LONG] = "the Connect would be longer than a frame (too many submodules)",
        [PN_PLAN_NAME] = "a NameOfStation is not valid (letters a to z, digits, hyphens; labels of at most 63 joined by dots)",
        [PN_PLAN_ADDRESS] = "an IPAddress, SubnetMask, Gateway or MAC is not valid",
        [PN_PLAN_MEMORY] = "out of memory",
    };
    return fault < sizeof words / sizeof words[0] && words[fault] != NULL ? words[fault] : "it gives no plan";
}

static int ends_with(const char *text, const char *end)
{
    size_t length = strlen(text), size = strlen(end);
    return length >= size && strcmp(text + length - size, end) == 0;
}

/* What is wrong with the value at a key. */
static const char *value_words(uint32_t fault, const char *where)
{
    static char words[KEYS_WANTS + 16], wants[KEYS_WANTS];
    int is_record = strstr(where, "].Records[") != NULL;
    if (fault == PN_PLAN_NUMBER && is_record && ends_with(where, ".Data"))
        return "it must have as many octets as the record (Length of its ParameterRecordDataItem)";
    if (fault == PN_PLAN_NUMBER && is_record && ends_with(where, ".Subslot"))
        return "it must be from 1 to 36,863, and a Subslot of the module with the ID that ModuleItemTarget names";
    if (fault == PN_PLAN_NUMBER && is_record && ends_with(where, ".Index"))
        return "it must be from 0 to 32,767, and an Index of this submodule (ParameterRecordDataItem)";
    if (fault != PN_PLAN_NUMBER && fault != PN_PLAN_WRONG_KIND)
        return fault_words(fault);
    snprintf(words, sizeof words, "it must be %s", keys_wants(where, wants));
    return words;
}

/* Ends the program because a text is no JSON, with the place of its first fault. */
static _Noreturn void refuse_text(const char *path, const uint8_t *text, size_t length)
{
    struct json_fault found;
    if (json_find_fault(text, length, &found))
        fail(STATUS_DATA, "'%s' line %u column %u: fault %u: %s: %s", path, found.line, found.column, (unsigned)(PN_PLAN_JSON - PN_PLAN_FAULT),
             fault_words(PN_PLAN_JSON), found.why);
    fail(STATUS_DATA, "'%s': fault %u: %s", path, (unsigned)(PN_PLAN_JSON - PN_PLAN_FAULT), fault_words(PN_PLAN_JSON));
}

/* Ends the program because of the value at a key, with the line that it is on. */
static _Noreturn void refuse_value(const char *path, const uint8_t *text, size_t length, uint32_t fault, const char *where)
{
    unsigned line = json_line(text, length, where);
    char on[32] = "";
    if (line != 0)
        snprintf(on, sizeof on, " line %u", line);
    fail(STATUS_DATA, "'%s'%s: fault %u at %s: %s", path, on, (unsigned)(fault - PN_PLAN_FAULT), where, value_words(fault, where));
}

void station_plan(pn_plan *plan, const char *path)
{
    char where[256], why[SLOTS_WORDS];
    size_t length;
    uint8_t *text = read_whole(path, &length);
    uint32_t fault = pn_plan_read(plan, text, length);
    if (fault == PN_PLAN_JSON)
        refuse_text(path, text, length);
    if (fault != PN_OK && pn_plan_where(text, length, where, sizeof where) != 0)
        refuse_value(path, text, length, fault, where);
    if (fault == PN_PLAN_NOT_ALLOWED && slots_why(text, length, why) != NULL)
        fail(STATUS_DATA, "'%s': fault %u: a module is not allowed in its slot: %s", path, (unsigned)(fault - PN_PLAN_FAULT), why);
    if (fault != PN_OK)
        fail(STATUS_DATA, "'%s': fault %u: %s", path, (unsigned)(fault - PN_PLAN_FAULT), fault_words(fault));
    keys_warn(path, text, length);
    free(text);
}

void station_warn(const pn_plan *plan, const char *path)
{
    unsigned interval = (unsigned)plan->send_clock_factor * plan->reduction_ratio, taken;
    char ends[128] = "";
    if (interval <= NEWEST)
        return;
    if (interval == ROUND) {
        say("warning: '%s': Project.ReductionRatio: " INTERVAL "No frame after the first one is newer by its CycleCounter, so " ENDS, path, interval, NEWEST);
        return;
    }
    taken = (ROUND - NEWEST + ROUND - interval - 1) / (ROUND - interval);
    if (plan->data_hold_factor <= taken)
        snprintf(ends, sizeof ends, ", so with DataHoldFactor %u " ENDS, plan->data_hold_factor);
    say("warning: '%s': Project.ReductionRatio: " INTERVAL "Only one frame in %u is newer by its CycleCounter%s", path, interval, NEWEST, taken, ends);
}

void station_places(struct places *places, const pn_module *modules, uint32_t count, enum direction direction)
{
    places->count = 0;
    for (uint32_t i = 0; i < count; i++)
        for (uint16_t k = 0; k < modules[i].submodule_count; k++) {
            const pn_submodule *part = &modules[i].submodules[k];
            uint16_t length = direction == OF_INPUT ? part->input : part->output;
            struct place *place = &places->list[places->count];
            if (length == 0 || length > STATION_DATA)
                continue;
            memset(place, 0, sizeof *place);
            place->slot = modules[i].slot;
            place->subslot = part->subslot;
            place->length = length;
            places->count++;
        }
}

struct place *station_place(struct places *places, uint16_t slot, uint16_t subslot)
{
    for (unsigned i = 0; i < places->count; i++)
        if (places->list[i].slot == slot && places->list[i].subslot == subslot)
            return &places->list[i];
    return NULL;
}

int station_update(struct place *place, const uint8_t *octets, size_t length)
{
    if (length != place->length || memcmp(octets, place->octets, length) == 0)
        return 0;
    memcpy(place->octets, octets, length);
    place->is_changed = 1;
    return 1;
}

void station_line(char text[STATION_LINE], const char *label, const struct place *place)
{
    char labelled[32];
    snprintf(labelled, sizeof labelled, "%s %u %u", label, place->slot, place->subslot);
    words_labelled(text, STATION_LINE, labelled, place->octets, place->length);
}
