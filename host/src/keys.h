/* The keys of a catalogue: what the value of each must be, and warnings of keys that a catalogue does not have. For messages only: the library
 * reads the catalogue. */
#ifndef HOST_KEYS_H
#define HOST_KEYS_H

#include <stddef.h>
#include <stdint.h>

/* What the value at a place must be, such as `a whole number from 1 to 128` for `Project.SendClockFactor`. An entry of a list is a place too. */
#define KEYS_WANTS 160
const char *keys_wants(const char *place, char words[KEYS_WANTS]);

/* Warns of each key of a catalogue that is valid JSON which the program ignores and nobody else reads, with the nearest key. */
void keys_warn(const char *file, const uint8_t *text, size_t length);

#endif
