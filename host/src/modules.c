#include "modules.h"
#include "words.h"
#include <string.h>

/* Reads an ident number. */
static int read_ident(const char *word, uint32_t *ident)
{
    unsigned long number;
    if (!words_number(word, 0xFFFFFFFFu, &number))
        return 0;
    *ident = (uint32_t)number;
    return 1;
}

/* Reads the parameter records, up to the end of the words. */
static int read_parameters(char *words[], pn_submodule *submodule)
{
    submodule->parameter_count = 0;
    for (; words[0] != NULL; words += 2) {
        uint16_t numbers[2];
        if (submodule->parameter_count == PN_PARAMETERS || words[1] == NULL || !words_numbers(words, numbers, 2))
            return 0;
        submodule->parameters[submodule->parameter_count++] = (pn_parameter){numbers[0], numbers[1]};
    }
    return 1;
}

int modules_read_plug(char *words[], struct modules_plug *plug)
{
    uint16_t place[2], data[2];
    pn_submodule *part = &plug->submodule;
    memset(plug, 0, sizeof *plug);
    for (unsigned i = 0; i < 6; i++)
        if (words[i] == NULL)
            return 0;
    if (!words_numbers(words, place, 2) || !read_ident(words[2], &plug->module) || !read_ident(words[3], &part->ident) || !words_numbers(words + 4, data, 2))
        return 0;
    plug->slot = place[0];
    part->subslot = place[1];
    part->input = data[0];
    part->output = data[1];
    return read_parameters(words + 6, part);
}

/* The place of the module in a slot; the number of modules if the slot is empty. */
static uint32_t find(const pn_station *station, uint16_t slot)
{
    uint32_t at = 0;
    while (at < station->module_count && station->modules[at].slot != slot)
        at++;
    return at;
}

void modules_pull(pn_station *station, uint16_t slot, uint16_t subslot)
{
    uint32_t at = find(station, slot);
    pn_module *entry = &station->modules[at];
    uint16_t left = 0;
    if (at == station->module_count)
        return;
    for (uint16_t i = 0; i < entry->submodule_count; i++)
        if (entry->submodules[i].subslot != subslot)
            entry->submodules[left++] = entry->submodules[i];
    entry->submodule_count = left;
}

void modules_pull_module(pn_station *station, uint16_t slot)
{
    uint32_t at = find(station, slot);
    if (at == station->module_count)
        return;
    station->module_count--;
    memmove(&station->modules[at], &station->modules[at + 1], (station->module_count - at) * sizeof station->modules[0]);
}

void modules_plug(pn_station *station, const struct modules_plug *plug)
{
    uint32_t at = find(station, plug->slot);
    pn_module *entry = &station->modules[at];
    if (at == PN_MODULES)
        return;
    if (at == station->module_count) {
        memset(entry, 0, sizeof *entry);
        entry->slot = plug->slot;
        entry->ident = plug->module;
        station->module_count++;
    }
    if (entry->submodule_count < PN_SUBMODULES)
        entry->submodules[entry->submodule_count++] = plug->submodule;
}
