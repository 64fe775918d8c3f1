#include "slots.h"
#include "json.h"
#include <stdio.h>
#include <stdlib.h>
#include <string.h>

/* More entries of Slots than these are not compared with each other. */
#define COMPARED 1024

struct catalogue {
    struct json modules;    /* ModuleItem */
    struct json physical;   /* PhysicalSlots */
    struct json references; /* ModuleItemRef */
    struct json slots;      /* Slots */
};

/* A list that is absent is empty. */
static void take_list(struct json object, const char *key, struct json *list)
{
    if (!json_member(object, key, list))
        *list = (struct json){NULL, NULL};
}

static int read_catalogue(struct json whole, struct catalogue *catalogue)
{
    struct json point, project;
    if (!json_member(whole, "DeviceAccessPointItem", &point) || !json_member(whole, "Project", &project))
        return 0;
    take_list(whole, "ModuleItem", &catalogue->modules);
    take_list(point, "PhysicalSlots", &catalogue->physical);
    take_list(point, "ModuleItemRef", &catalogue->references);
    take_list(project, "Slots", &catalogue->slots);
    return 1;
}

/* A number of a text that is followed by something else. */
static unsigned long long number_of(struct json value)
{
    return json_next(&value) == '\0' ? 0 : strtoull(value.at, NULL, 10);
}

/* The string at a key. */
static void text_at(struct json object, const char *key, struct json_text *text)
{
    struct json value;
    text->octets[0] = '\0';
    if (json_member(object, key, &value))
        json_string(&value, text);
}

static int is_same(const struct json_text *one, const struct json_text *other)
{
    return strcmp(one->octets, other->octets) == 0;
}

/* Whether a list of numbers has this one. */
static int has_number(struct json list, unsigned long long slot)
{
    struct json entry;
    for (int more = json_first(list, &entry); more; more = json_further(&entry))
        if (number_of(entry) == slot)
            return 1;
    return 0;
}

static int has_slot(struct json reference, const char *key, unsigned long long slot)
{
    struct json list;
    return json_member(reference, key, &list) && has_number(list, slot);
}

static int has_module(const struct catalogue *catalogue, const struct json_text *target)
{
    struct json entry;
    struct json_text id;
    for (int more = json_first(catalogue->modules, &entry); more; more = json_further(&entry)) {
        text_at(entry, "ID", &id);
        if (is_same(&id, target))
            return 1;
    }
    return 0;
}

/* Why a module may not be in a slot. Returns whether it may not. */
static int is_refused(const struct catalogue *catalogue, unsigned long long slot, const struct json_text *target, char words[SLOTS_WORDS])
{
    struct json reference;
    struct json_text name, other = {.octets = ""};
    int is_taken = 0;
    for (int more = json_first(catalogue->references, &reference); more; more = json_further(&reference)) {
        text_at(reference, "ModuleItemTarget", &name);
        if (is_same(&name, target))
            is_taken |= has_slot(reference, "AllowedInSlots", slot) || has_slot(reference, "FixedInSlots", slot);
        else if (has_slot(reference, "FixedInSlots", slot))
            other = name;
    }
    if (!has_module(catalogue, target))
        snprintf(words, SLOTS_WORDS, "slot %llu: there is no ModuleItem with the ID '%s'", slot, target->octets);
    else if (slot == 0)
        snprintf(words, SLOTS_WORDS, "slot 0 is that of the access point");
    else if (!has_number(catalogue->physical, slot))
        snprintf(words, SLOTS_WORDS, "slot %llu is not one of PhysicalSlots", slot);
    else if (other.octets[0] != '\0')
        snprintf(words, SLOTS_WORDS, "slot %llu has '%s' fixed in it (FixedInSlots), and not '%s'", slot, other.octets, target->octets);
    else if (!is_taken)
        snprintf(words, SLOTS_WORDS, "slot %llu is in neither AllowedInSlots nor FixedInSlots of '%s'", slot, target->octets);
    else
        return 0;
    return 1;
}

/* A module that is fixed in a slot. */
static int is_fixed_refused(const struct catalogue *catalogue, char words[SLOTS_WORDS])
{
    struct json reference, list, entry;
    struct json_text target;
    for (int more = json_first(catalogue->references, &reference); more; more = json_further(&reference)) {
        text_at(reference, "ModuleItemTarget", &target);
        if (json_member(reference, "FixedInSlots", &list))
            for (int next = json_first(list, &entry); next; next = json_further(&entry))
                if (is_refused(catalogue, number_of(entry), &target, words))
                    return 1;
    }
    return 0;
}

const char *slots_why(const uint8_t *text, size_t length, char words[SLOTS_WORDS])
{
    static unsigned long long seen[COMPARED];
    struct catalogue catalogue;
    struct json entry, value;
    struct json_text target;
    size_t count = 0, twice = COMPARED;
    if (!read_catalogue((struct json){(const char *)text, (const char *)text + length}, &catalogue))
        return NULL;
    for (int more = json_first(catalogue.slots, &entry); more; more = json_further(&entry)) {
        unsigned long long slot = json_member(entry, "Slot", &value) ? number_of(value) : 0;
        text_at(entry, "ModuleItemTarget", &target);
        if (is_refused(&catalogue, slot, &target, words))
            return words;
        for (size_t i = 0; i < count && twice == COMPARED; i++)
            if (seen[i] == slot)
                twice = i;
        if (count < COMPARED)
            seen[count++] = slot;
    }
    if (is_fixed_refused(&catalogue, words))
        return words;
    if (twice == COMPARED)
        return NULL;
    snprintf(words, SLOTS_WORDS, "slot %llu is in Slots twice", seen[twice]);
    return words;
}
