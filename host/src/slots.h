/* Why a module may not be in its slot, for the message of fault 5. The library judges the catalogue; this finds the slot again. */
#ifndef HOST_SLOTS_H
#define HOST_SLOTS_H

#include <stddef.h>
#include <stdint.h>

/* The first slot of a catalogue in which its module may not be, and why, as `slot 9 is not one of PhysicalSlots`. NULL if none is found. */
#define SLOTS_WORDS 256
const char *slots_why(const uint8_t *text, size_t length, char words[SLOTS_WORDS]);

#endif
