/* What a device answers whose flash cannot be written: the answer to the same request with the error of a flash that failed, BlockError 5 (SET not
 * possible) in DCP and PNIOStatus DF 80 B5 05 in a call. It is made of the answer that the device would give if its flash worked, which is not sent. */
#ifndef HOST_REFUSAL_H
#define HOST_REFUSAL_H

#include <stddef.h>
#include <stdint.h>

/* Makes the answer to a Set or a Write into its refusal, in place. Returns its length, or 0 if the frame is no such answer. */
size_t refusal_of(uint8_t *octets, size_t length);

#endif
