/* What a controller waits for, and how long it has: for a line after 5 seconds without progress, and again each time when this time has
 * doubled. Only used for messages. */
#ifndef HOST_WAITING_H
#define HOST_WAITING_H

#include "nandutable_controller.h"
#include "wire.h"

struct waiting {
    const pn_plan *plan;
    uint32_t state;
    uint32_t sequence;  /* of the last call that was sent */
    uint32_t tries;     /* of the calls before it: those of the start-up that were refused as busy, and tried again */
    int is_busy;        /* the last answer to a Write of the start-up, or to PrmEnd, is that the device is busy */
    uint8_t device[6];  /* to which the last request went */
    uint64_t since;     /* the last progress, in nanoseconds of the clock */
    uint64_t pause;     /* from then to the next line, in nanoseconds */
    int is_asked;       /* an ARP request was sent for the next line */
    int is_answered;    /* and the device has answered it */
    int is_foreign;     /* and another station has */
    uint8_t foreign[6]; /* that station */
};

/* Begins for this plan. */
void waiting_start(struct waiting *waiting, const pn_plan *plan);

/* Notes the state. Another state is progress. */
void waiting_state(struct waiting *waiting, uint32_t state);

/* Reads a sent frame. The first one of another call is progress, unless the device was busy: then it is another try. */
void waiting_sent(struct waiting *waiting, const uint8_t *octets, size_t length);

/* Reads a received frame, before the controller does. */
void waiting_hear(struct waiting *waiting, const uint8_t *octets, size_t length);

/* Sends an ARP request for the plan's address a second before a line whose text depends on the answer. */
void waiting_ask(struct waiting *waiting, struct wire *wire);

/* Writes what it waits for. */
#define WAITING_WORDS 384 /* a name has up to 240 letters */
void waiting_words(const struct waiting *waiting, const struct wire *wire, char *text, size_t size);

/* Writes a line if one is due. Returns whether it is. */
int waiting_line(struct waiting *waiting, const struct wire *wire, char *text, size_t size);

#endif
