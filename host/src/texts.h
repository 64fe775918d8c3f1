/* What a catalogue calls things, for people: its modules and submodules, and the maker's errors of channels. They change nothing else. */
#ifndef HOST_TEXTS_H
#define HOST_TEXTS_H

#include <stdint.h>

#define TEXTS_LONGEST 80 /* octets of a text; a longer one is cut */

/* The name of a module, or of one of its submodules. */
struct texts_place {
    uint16_t slot;
    int32_t subslot; /* -1: the module */
    char text[TEXTS_LONGEST + 1];
};

/* The name of a ChannelErrorType, or of one of its ExtChannelErrorTypes. */
struct texts_error {
    uint16_t error;
    int32_t extended; /* -1: the error itself */
    char text[TEXTS_LONGEST + 1];
};

struct texts {
    struct texts_place *places; /* of the slots of the project, in their order, slot 0 first */
    unsigned place_count;
    struct texts_error *errors;
    unsigned error_count;
};

/* Reads the texts of the catalogue of this file. Without any in the file, or in a program that was built without jansson, no text is known. */
void texts_read(struct texts *texts, const char *file);

/* The maker's name of an error (`extended` -1), or of an extended error; an empty text if it has no name. */
const char *texts_error(const struct texts *texts, unsigned error, long extended);

#endif
