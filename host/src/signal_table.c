#include "signal_table.h"
#include "say.h"
#include <errno.h>
#include <stdarg.h>
#include <stdio.h>
#include <stdlib.h>
#include <string.h>
#ifdef HAVE_JANSSON
#include <jansson.h>

static struct signal_entry *room_for(unsigned count)
{
    struct signal_entry *list = calloc(count == 0 ? 1 : count, sizeof *list);
    if (list == NULL)
        fail(STATUS_SYSTEM, "out of memory");
    return list;
}

/* The octets of a submodule in a direction; 0 if it has none or does not exist. */
static uint16_t octets_of(const pn_plan *plan, uint16_t slot, uint16_t subslot, enum direction direction)
{
    for (uint32_t i = 0; i < plan->module_count; i++)
        for (uint16_t k = 0; plan->modules[i].slot == slot && k < plan->modules[i].submodule_count; k++)
            if (plan->modules[i].submodules[k].subslot == subslot)
                return direction == OF_INPUT ? plan->modules[i].submodules[k].input : plan->modules[i].submodules[k].output;
    return 0;
}

/* The data of a submodule as one signal. */
static void put_whole(struct signal_entry *entry, uint16_t slot, uint16_t subslot, enum direction direction, uint16_t length)
{
    snprintf(entry->name, sizeof entry->name, "slot%u_sub%u_%s", slot, subslot, direction == OF_INPUT ? "in" : "out");
    entry->direction = direction;
    entry->slot = slot;
    entry->subslot = subslot;
    entry->length = length;
    entry->bit = -1;
    entry->type = signal_type("OctetString");
}

/* The signals of a catalogue that names none: the data of each submodule in each direction. */
static unsigned put_default(const pn_plan *plan, struct signal_entry **list)
{
    unsigned count = 0;
    *list = room_for(2 * STATION_PLACES);
    for (uint32_t i = 0; i < plan->module_count; i++)
        for (uint16_t k = 0; k < plan->modules[i].submodule_count; k++) {
            const pn_submodule *part = &plan->modules[i].submodules[k];
            if (part->input != 0)
                put_whole(&(*list)[count++], plan->modules[i].slot, part->subslot, OF_INPUT, part->input);
            if (part->output != 0)
                put_whole(&(*list)[count++], plan->modules[i].slot, part->subslot, OF_OUTPUT, part->output);
        }
    return count;
}

/* Where a signal is, for a message. */
struct place_of_fault {
    const char *file;
    size_t index;
};

static _Noreturn void refuse(const struct place_of_fault *at, const char *format, ...) __attribute__((format(printf, 2, 3)));

static _Noreturn void refuse(const struct place_of_fault *at, const char *format, ...)
{
    char why[512];
    va_list values;
    va_start(values, format);
    vsnprintf(why, sizeof why, format, values);
    va_end(values);
    fail(STATUS_DATA, "'%s': Project.Signals[%zu]: %s", at->file, at->index, why);
}

/* The number at a key, which must be there if `absent` is negative. */
static long number_at(const struct place_of_fault *at, const json_t *tree, const char *key, long least, long most, long absent)
{
    const json_t *value = json_object_get(tree, key);
    if (value == NULL && absent >= 0)
        return absent;
    if (!json_is_integer(value) || json_integer_value(value) < least || json_integer_value(value) > most)
        refuse(at, "%s is a number from %ld to %ld", key, least, most);
    return (long)json_integer_value(value);
}

/* The text at a key; empty if there is no text. */
static const char *text_at(const struct place_of_fault *at, const json_t *tree, const char *key, size_t most)
{
    const json_t *value = json_object_get(tree, key);
    const char *text = json_is_string(value) ? json_string_value(value) : "";
    int is_plain = 1;
    for (size_t i = 0; text[i] != '\0'; i++)
        is_plain &= (unsigned char)text[i] >= ' ' && text[i] != 0x7F;
    if ((value != NULL && !json_is_string(value)) || json_string_length(value) != (json_is_string(value) ? strlen(text) : 0) || strlen(text) > most ||
        !is_plain)
        refuse(at, "%s is a text of at most %zu octets without control characters", key, most);
    return text;
}

static void take_name(const struct place_of_fault *at, const json_t *tree, struct signal_entry *entry)
{
    const char *name = json_string_value(json_object_get(tree, "Name"));
    size_t length = name == NULL ? 0 : strspn(name, "abcdefghijklmnopqrstuvwxyz0123456789_");
    if (length == 0 || length > SIGNAL_NAME || name[length] != '\0' || name[0] < 'a')
        refuse(at, "Name is 1 to %d letters a to z, digits and '_', and begins with a letter", SIGNAL_NAME);
    strcpy(entry->name, name);
}

static void take_direction(const struct place_of_fault *at, const json_t *tree, struct signal_entry *entry)
{
    const char *direction = json_string_value(json_object_get(tree, "Direction"));
    if (direction == NULL || (strcmp(direction, "Input") != 0 && strcmp(direction, "Output") != 0))
        refuse(at, "Direction is Input or Output");
    entry->direction = strcmp(direction, "Input") == 0 ? OF_INPUT : OF_OUTPUT;
}

static void take_type(const struct place_of_fault *at, const json_t *tree, struct signal_entry *entry)
{
    const char *name = json_string_value(json_object_get(tree, "Type"));
    const json_t *bit = json_object_get(tree, "Bit");
    entry->type = name == NULL ? NULL : signal_type(name);
    if (entry->type == NULL)
        refuse(at, "Type is not a DataType of GSDML");
    entry->length = (uint16_t)number_at(at, tree, "Length", 1, SIGNAL_OCTETS, entry->type->length == 0 ? -1 : entry->type->length);
    if (entry->type->length != 0 && entry->length != entry->type->length)
        refuse(at, "Length of %s is %u", name, entry->type->length);
    entry->bit = bit == NULL || json_is_null(bit) ? -1 : (int)number_at(at, tree, "Bit", 0, 7, -1);
    if (entry->bit >= 0 && entry->type->form != FORM_BOOLEAN)
        refuse(at, "Bit takes the Type Boolean");
}

static void take_entry(const struct place_of_fault *at, const json_t *tree, const pn_plan *plan, struct signal_entry *entry)
{
    const char *way;
    uint16_t whole;
    if (!json_is_object(tree))
        refuse(at, "it is no object");
    take_name(at, tree, entry);
    take_direction(at, tree, entry);
    way = entry->direction == OF_INPUT ? "input" : "output";
    entry->slot = (uint16_t)number_at(at, tree, "Slot", 0, 65535, -1);
    entry->subslot = (uint16_t)number_at(at, tree, "Subslot", 0, 65535, -1);
    entry->octet = (uint16_t)number_at(at, tree, "Octet", 0, 65535, -1);
    take_type(at, tree, entry);
    whole = octets_of(plan, entry->slot, entry->subslot, entry->direction);
    if (whole == 0)
        refuse(at, "slot %u subslot %u has no %s", entry->slot, entry->subslot, way);
    if (entry->octet + entry->length > whole)
        refuse(at, "octets %u to %u are not in the %u octets of %s of slot %u subslot %u", entry->octet, entry->octet + entry->length - 1, whole, way,
               entry->slot, entry->subslot);
    strcpy(entry->unit, text_at(at, tree, "Unit", SIGNAL_UNIT));
    strcpy(entry->text, text_at(at, tree, "Text", SIGNAL_TEXT));
}

static int by_name(const void *one, const void *other)
{
    return strcmp((*(const struct signal_entry *const *)one)->name, (*(const struct signal_entry *const *)other)->name);
}

/* Refuses two signals of one name; the later one is named. */
static void check_names(const char *file, const struct signal_entry *list, unsigned count)
{
    const struct signal_entry **sorted = calloc(count == 0 ? 1 : count, sizeof *sorted);
    if (sorted == NULL)
        fail(STATUS_SYSTEM, "out of memory");
    for (unsigned i = 0; i < count; i++)
        sorted[i] = &list[i];
    qsort(sorted, count, sizeof *sorted, by_name);
    for (unsigned i = 1; i < count; i++)
        if (strcmp(sorted[i - 1]->name, sorted[i]->name) == 0) {
            const struct signal_entry *later = sorted[i - 1] > sorted[i] ? sorted[i - 1] : sorted[i];
            refuse(&(struct place_of_fault){file, (size_t)(later - list)}, "Name '%s' is that of another signal", later->name);
        }
    free(sorted);
}

static unsigned take_list(const char *file, const json_t *tree, const pn_plan *plan, struct signal_entry **list)
{
    size_t count = json_array_size(tree);
    if (!json_is_array(tree))
        fail(STATUS_DATA, "'%s': Project.Signals is no list", file);
    if (count > SIGNALS_MOST)
        fail(STATUS_DATA, "'%s': Project.Signals has more than %u signals", file, SIGNALS_MOST);
    *list = room_for((unsigned)count);
    for (size_t i = 0; i < count; i++)
        take_entry(&(struct place_of_fault){file, i}, json_array_get(tree, i), plan, &(*list)[i]);
    check_names(file, *list, (unsigned)count);
    return (unsigned)count;
}

unsigned signal_table(const char *file, const pn_plan *plan, struct signal_entry **list)
{
    json_error_t fault;
    json_t *tree = json_load_file(file, JSON_ALLOW_NUL, &fault), *signals;
    unsigned count;
    if (tree == NULL)
        fail(STATUS_DATA, "'%s': its signals cannot be read: line %d: %s", file, fault.line, fault.text);
    signals = json_object_get(json_object_get(tree, "Project"), "Signals");
    count = signals == NULL ? put_default(plan, list) : take_list(file, signals, plan, list);
    json_decref(tree);
    return count;
}

#else

unsigned signal_table(const char *file, const pn_plan *plan, struct signal_entry **list)
{
    (void)plan;
    (void)list;
    fail(STATUS_USAGE, "'%s': this program was built without jansson, which reads the signals: install it (Debian: libjansson-dev) and build again", file);
}

#endif
