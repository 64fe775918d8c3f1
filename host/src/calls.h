/* Places in a frame with a DCE/RPC datagram. Used for messages, to find the relation of a datagram, and for the limit of stored records. */
#ifndef HOST_CALLS_H
#define HOST_CALLS_H

#include <stddef.h>
#include <stdint.h>

enum { CALLS_REQUEST = 0, CALLS_RESPONSE = 2, CALLS_FAULT = 3, CALLS_REJECT = 6 };

/* Whether a frame is a datagram of this type that is long enough for the PNIOStatus of a response, and the status of a reject or a fault, which
 * is at the same place. */
int calls_is(const uint8_t *octets, size_t length, unsigned type);

/* Whether a frame is the Release of a controller. */
int calls_is_release(const uint8_t *octets, size_t length);

/* The sequence number of such a datagram. */
uint32_t calls_sequence(const uint8_t *octets);

/* That status, with its most significant octet first. */
void calls_status(const uint8_t *octets, uint8_t status[4]);

/* The blocks of a response and their size, with the padding of the frame. */
const uint8_t *calls_blocks(const uint8_t *octets, size_t length, size_t *size);

/* The numbers that say which relation a datagram is for. */
struct calls_numbers {
    uint8_t activity[16];
    uint8_t ar[16]; /* ARUUID of a request */
    int has_ar;
};

/* Reads the numbers of a datagram of any type, also with a tag and with options of IPv4. Returns whether it is one that has them. */
int calls_read(const uint8_t *octets, size_t length, struct calls_numbers *numbers);

/* Whether a frame is a call that may store settings: a Write of an I&M record or of a list with such records, or a fragment of a Write. A Write
 * that is not understood counts as one. */
int calls_may_store(const uint8_t *octets, size_t length);

#endif
