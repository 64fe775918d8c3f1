/* What the octets of a record say, in words, for --read: I&M0 to I&M4, what is expected and what is plugged, the filter of I&M0, APIs, diagnosis, the
 * ports with their neighbours, and the interface (IEC 61158-6-10). */
#ifndef HOST_DECODED_H
#define HOST_DECODED_H

#include <stddef.h>
#include <stdint.h>

/* Prints indented lines on standard output, for each block that is known. A block that is not whole, and what is no block, is left out. */
void decoded_print(const uint8_t *octets, size_t length);

#endif
