/* --read: a record of one station, without a relation. An Identify finds the station, and a call reads its record. */
#ifndef HOST_READING_H
#define HOST_READING_H

#include "caller.h"

/* The station whose record is read. */
struct reading_station {
    const char *word;    /* its name, or its MAC address, as it was given */
    const uint8_t *name; /* or NULL: it is the one with the MAC address */
    size_t name_length;  /* at most 240 */
    uint8_t mac[6];
};

/* Prints a record of it. Without a record to print it ends the program with a message. */
void reading_print(const struct caller *caller, struct wire *wire, const struct reading_station *station, const struct access *access);

#endif
