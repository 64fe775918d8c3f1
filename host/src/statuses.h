/* The meaning of a PNIOStatus, of the code of an ERR, and of the status of a call that was rejected, as text. Only used for messages. */
#ifndef HOST_STATUSES_H
#define HOST_STATUSES_H

#include <stddef.h>
#include <stdint.h>

#define STATUSES_LONGEST 256 /* octets of a text, with its 0 */

/* Writes the meaning of a PNIOStatus (IEC 61158-6-10, 5.2.6): the names of its ErrorCode1 and of an ErrorCode2 of CMRPC, and what that means
 * for who made the plan. */
void statuses_pnio(const uint8_t status[4], char *text, size_t size);

/* Why a device ended a relation by an ERR with this ErrorCode2. */
const char *statuses_abort(uint8_t code);

/* Writes the meaning of the status of a reject or a fault (DCE 1.1, appendix E), its name first. */
void statuses_rejected(uint32_t status, char *text, size_t size);

#endif
