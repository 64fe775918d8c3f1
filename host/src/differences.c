#include "differences.h"
#include "calls.h"
#include <stdio.h>
#include <string.h>

#define MODULE_DIFF_BLOCK 0x8104u
#define BLOCK_HEADER 6u /* its type, its length and its version */

/* ModuleState. */
enum { NO_MODULE = 0, WRONG_MODULE = 1, PROPER_MODULE = 2, SUBSTITUTE_MODULE = 3 };

/* SubmoduleState: bit 15 says that the others are as here; bits 3 to 6 are conditions, ARInfo is bits 7 to 10, IdentInfo bits 11 to 14. */
#define IS_DETAILED 0x8000u
#define HAS_QUALIFIED_DIAGNOSIS 0x0008u
#define WANTS_MAINTENANCE 0x0030u
#define HAS_DIAGNOSIS 0x0040u
#define AR_INFO(state) ((unsigned)(state) >> 7 & 15)
#define IDENT_INFO(state) ((unsigned)(state) >> 11 & 15)

/* Octets that are read in order; after their end there are only zeros. */
struct reader {
    const uint8_t *octets;
    size_t left;
};

static uint16_t read_two(struct reader *reader)
{
    uint16_t value = 0;
    if (reader->left >= 2) {
        value = (uint16_t)(reader->octets[0] << 8 | reader->octets[1]);
        reader->octets += 2;
        reader->left -= 2;
    } else {
        reader->left = 0;
    }
    return value;
}

static uint32_t read_four(struct reader *reader)
{
    uint32_t high = read_two(reader);
    return high << 16 | read_two(reader);
}

static void keep(struct differences *differences, const struct difference *difference)
{
    if (differences->count < DIFFERENCES_MOST)
        differences->list[differences->count++] = *difference;
}

static void read_submodule(struct differences *differences, struct reader *reader, uint16_t slot)
{
    struct difference row = {.slot = slot};
    row.subslot = read_two(reader);
    row.ident = read_four(reader);
    row.state = read_two(reader);
    row.is_usable = (row.state & IS_DETAILED) != 0 && IDENT_INFO(row.state) <= 1 && AR_INFO(row.state) == 0;
    if (row.state != IS_DETAILED)
        keep(differences, &row);
}

static void read_module(struct differences *differences, struct reader *reader)
{
    struct difference row = {.is_module = 1};
    unsigned count;
    row.slot = read_two(reader);
    row.ident = read_four(reader);
    row.state = read_two(reader);
    count = read_two(reader);
    row.is_usable = row.state == SUBSTITUTE_MODULE;
    if (row.state != PROPER_MODULE)
        keep(differences, &row);
    for (; count > 0 && reader->left > 0; count--)
        read_submodule(differences, reader, row.slot);
}

static void read_block(struct differences *differences, struct reader reader)
{
    unsigned apis = read_two(&reader);
    for (; apis > 0 && reader.left > 0; apis--) {
        unsigned modules;
        read_four(&reader); /* the API */
        for (modules = read_two(&reader); modules > 0 && reader.left > 0; modules--)
            read_module(differences, &reader);
    }
}

void differences_read(struct differences *differences, const uint8_t *octets, size_t length)
{
    struct reader reader = {NULL, 0};
    differences->count = 0;
    reader.octets = calls_blocks(octets, length, &reader.left);
    while (reader.left > BLOCK_HEADER) {
        unsigned type = read_two(&reader), size = read_two(&reader);
        if (size < 2 || size > reader.left)
            return;
        if (type == MODULE_DIFF_BLOCK)
            read_block(differences, (struct reader){reader.octets + 2, size - 2});
        reader.octets += size;
        reader.left -= size;
    }
}

const struct difference *differences_unusable(const struct differences *differences)
{
    for (unsigned i = 0; i < differences->count; i++)
        if (!differences->list[i].is_usable)
            return &differences->list[i];
    return NULL;
}

static const char *module_words(unsigned state)
{
    switch (state) {
    case NO_MODULE: return "no module is plugged";
    case WRONG_MODULE: return "another module is plugged";
    case SUBSTITUTE_MODULE: return "another module is plugged, which the device uses as a substitute";
    default: return "the state of the module is not known here";
    }
}

static const char *locked_words(unsigned info)
{
    switch (info) {
    case 1: return "the submodule is not ready yet";
    case 2: return "a superordinated place has the submodule";
    case 3: return "another controller has the submodule";
    case 4: return "a supervisor has the submodule";
    default: return "the state of the submodule is not known here";
    }
}

static const char *condition_words(unsigned state)
{
    if ((state & (HAS_DIAGNOSIS | HAS_QUALIFIED_DIAGNOSIS)) != 0)
        return "the submodule has a diagnosis";
    return (state & WANTS_MAINTENANCE) != 0 ? "the submodule wants maintenance" : "the submodule is as the plan expects it";
}

static const char *detailed_words(unsigned state)
{
    switch (IDENT_INFO(state)) {
    case 0: return AR_INFO(state) == 0 ? condition_words(state) : locked_words(AR_INFO(state));
    case 1: return "another submodule is plugged, which the device uses as a substitute";
    case 2: return "another submodule is plugged";
    case 3: return "no submodule is plugged";
    default: return "the state of the submodule is not known here";
    }
}

static const char *submodule_words(unsigned state)
{
    if ((state & IS_DETAILED) != 0)
        return detailed_words(state);
    switch (state) {
    case 0: return "no submodule is plugged";
    case 1: return "another submodule is plugged";
    case 2: return locked_words(3);
    case 4: return locked_words(1);
    case 7: return "another submodule is plugged, which the device uses as a substitute";
    default: return "the state of the submodule is not known here";
    }
}

static int is_not_the_one(const struct difference *difference)
{
    if (difference->is_module)
        return difference->state != PROPER_MODULE;
    return (difference->state & IS_DETAILED) != 0 ? IDENT_INFO(difference->state) != 0 : difference->state <= 1 || difference->state == 7;
}

/* The ident of a module of the plan, or of a submodule; 0 if the plan has none there. */
static uint32_t planned(const struct difference *difference, const pn_plan *plan)
{
    for (uint32_t i = 0; i < plan->module_count; i++) {
        const pn_module *module = &plan->modules[i];
        if (module->slot != difference->slot)
            continue;
        if (difference->is_module)
            return module->ident;
        for (uint16_t k = 0; k < module->submodule_count; k++)
            if (module->submodules[k].subslot == difference->subslot)
                return module->submodules[k].ident;
    }
    return 0;
}

void differences_words(const struct difference *difference, const pn_plan *plan, char *text, size_t size)
{
    char place[40], idents[96] = "";
    if (difference->is_module)
        snprintf(place, sizeof place, "slot %u", difference->slot);
    else
        snprintf(place, sizeof place, "slot %u subslot %u", difference->slot, difference->subslot);
    if (is_not_the_one(difference))
        snprintf(idents, sizeof idents, " (%s 0x%08X, and in the plan 0x%08X)", difference->is_module ? "ModuleIdentNumber" : "SubmoduleIdentNumber",
                 (unsigned)difference->ident, (unsigned)planned(difference, plan));
    snprintf(text, size, "%s: %s%s", place, difference->is_module ? module_words(difference->state) : submodule_words(difference->state), idents);
}
