/* The ModuleDiffBlock of a device's answer to the Connect, as text. Only used for messages. */
#ifndef HOST_DIFFERENCES_H
#define HOST_DIFFERENCES_H

#include "nandutable_controller.h"

#define DIFFERENCES_MOST 16    /* rows that are kept; further ones are not */
#define DIFFERENCES_LONGEST 192 /* octets of a text, with its 0 */

/* A module or a submodule that is not as the Connect expects it. */
struct difference {
    uint16_t slot;
    uint16_t subslot;
    uint16_t state; /* ModuleState or SubmoduleState */
    uint32_t ident; /* of what is plugged */
    int is_module;
    int is_usable; /* it does not end the relation */
};

struct differences {
    unsigned count;
    struct difference list[DIFFERENCES_MOST];
};

/* Reads the answer to a Connect. Without a ModuleDiffBlock the list is empty. */
void differences_read(struct differences *differences, const uint8_t *octets, size_t length);

/* The first row that ends the relation, or NULL. */
const struct difference *differences_unusable(const struct differences *differences);

/* Writes a row: its place, what is so there, and what the plan expects. */
void differences_words(const struct difference *difference, const pn_plan *plan, char *text, size_t size);

#endif
