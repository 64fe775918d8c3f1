/* A tool that reads records of stations without a relation (Read Implicit): who it is, its calls, and who answers ARP for its address. The
 * library writes the calls and reads their answers. */
#ifndef HOST_CALLER_H
#define HOST_CALLER_H

#include "access.h"
#include "nandutable_controller.h"
#include "wire.h"

/* Who calls. */
struct caller {
    pn_tool tool;
    int has_address;         /* the tool has an address from which it can call */
    pn_controller *services; /* answers ARP for that address, or NULL: the kernel does */
};

/* Takes the address of the interface as the tool's, if the interface has one. */
void caller_take_address(struct caller *caller, const struct wire *wire);

/* Makes the unique number of a call. */
void caller_make_activity(uint8_t activity[16]);

/* Sends the call with this number, which reads a record of a station. */
void caller_ask(const struct caller *caller, struct wire *wire, const pn_target *target, const uint8_t activity[16], const struct access *access);

/* Reads a received frame. Returns whether it answers the call with this number; the octets of the record are valid until the next of these
 * calls. */
int caller_hear(const struct caller *caller, const uint8_t activity[16], const uint8_t *octets, size_t size, struct access_answer *answer);

/* Answers a received frame if it asks by ARP for the tool's address. */
void caller_serve(const struct caller *caller, struct wire *wire, const uint8_t *octets, size_t size);

#endif
