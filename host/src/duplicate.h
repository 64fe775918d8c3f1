/* Another station that uses the address of the plan's station. It is asked for by ARP with each Identify, and nothing waits for an answer. It is
 * used only for a report; no proved source takes part. */
#ifndef HOST_DUPLICATE_H
#define HOST_DUPLICATE_H

#include "nandutable_controller.h"
#include "wire.h"

#define DUPLICATE_SENDERS 4

struct duplicate {
    const pn_plan *plan;
    uint8_t station[6]; /* to which the controller's frames go */
    int has_station;
    unsigned count; /* of the stations that have said in ARP that the address is theirs; more than these are not kept */
    uint8_t list[DUPLICATE_SENDERS][6];
    uint64_t asked;  /* when the last request was sent */
    unsigned left;   /* the requests that follow it, a second apart */
    uint64_t pauses; /* until then no other station is reported; kept at a new start */
};

/* Forgets everything at the start of a controller, except the pause. */
void duplicate_start(struct duplicate *duplicate, const pn_plan *plan);

/* Reads a frame that the controller is about to send. Before an Identify, asks who has the address. */
void duplicate_sent(struct duplicate *duplicate, struct wire *wire, const uint8_t *octets, size_t length);

/* Repeats the request, if it is time. */
void duplicate_ask(struct duplicate *duplicate, struct wire *wire);

/* Reads a received packet of ARP. */
void duplicate_hear(struct duplicate *duplicate, const uint8_t *octets, size_t length);

/* Fills in the report of another station. Returns whether there is one, at most every ten seconds. */
int duplicate_line(struct duplicate *duplicate, char *text, size_t size);

#endif
