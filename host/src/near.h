/* The word that is meant by another one, if one is near: for messages. */
#ifndef HOST_NEAR_H
#define HOST_NEAR_H

#include <stddef.h>

/* The longest word that is compared. */
#define NEAR_LONGEST 64

/* How many letters must be added, left out or replaced; two neighbours that changed places count as one. Capitals do not count. Both words have at most NEAR_LONGEST letters. */
size_t near_distance(const char *one, const char *other);

/* Whether at most each third letter differs, or one is the beginning of the other. */
int near_is(const char *one, const char *other);

/* A word, and the nearest one to it so far; of two that are as near it is the first. */
struct near {
    const char *word;
    const char *found; /* NULL: none is near */
    size_t apart;
};

/* Compares one more word. */
void near_try(struct near *near, const char *candidate);

#endif
