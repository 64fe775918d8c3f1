/* Where a text is no JSON, and on which line a value is: for messages about a catalogue. The library decides whether it is JSON. */
#ifndef HOST_JSON_FAULT_H
#define HOST_JSON_FAULT_H

#include <stddef.h>
#include <stdint.h>

struct json_fault {
    unsigned line;   /* from 1 on */
    unsigned column; /* the same, in characters */
    const char *why;
};

/* Finds the first place at which a text is no JSON (RFC 8259) in UTF-8. Returns whether there is one. */
int json_find_fault(const uint8_t *text, size_t length, struct json_fault *fault);

/* The line of the value at a place such as `Project.Slots[1].Slot` of a text that is JSON; if it is not there, of the object that lacks it. 0 if
 * there is no such place. */
unsigned json_line(const uint8_t *text, size_t length, const char *place);

#endif
