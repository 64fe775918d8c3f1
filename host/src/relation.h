/* The controller of one station: its relation, what it reports, and its statistics. A process has one for each plan. */
#ifndef HOST_RELATION_H
#define HOST_RELATION_H

#include "access.h"
#include "duplicate.h"
#include "histogram.h"
#include "loop.h"
#include "naming.h"
#include "nandutable_controller.h"
#include "reasons.h"
#include "station.h"
#include "texts.h"
#include "waiting.h"

/* In `providers`: the device runs. */
#define RELATION_RUNS 256

struct signals;

struct relation {
    /* What is read for each frame of any station. */
    uint64_t ends_at; /* when the controller is over: 0 before its end, the highest number while it waits for the answer to its Release */
    uint64_t ended_at; /* when it ended */
    uint32_t state;   /* as it was reported last */
    uint32_t cause;
    uint64_t units;  /* of the loop's time that were handed in */
    uint64_t due_at; /* the unit of the loop's time with which something is due; the highest number for none */
    struct waiting waiting;
    struct duplicate duplicate;
    /* The rest. */
    pn_controller room;
    pn_op op;
    pn_host host;
    pn_plan plan;
    const char *file;     /* of the plan */
    struct texts texts;   /* what it calls modules and errors */
    char station[241];    /* the name of the station, with a 0 at its end */
    uint8_t ar[16];       /* ARUUID */
    uint8_t activity[16]; /* of the calls of the controller */
    struct loop *loop;
    int serves; /* its services answer for the address that all controllers have */
    uint32_t conflicts;     /* that were seen */
    uint64_t conflict_told; /* when the last one was reported; 0: none yet */
    char neighbour[600];    /* by LLDP, as it was reported last; at the relation that answers for the address */
    char neighbour_seen[600];      /* as it was seen last */
    uint64_t neighbour_told;       /* when it was reported last; 0: not yet */
    uint64_t neighbours_left_out;  /* changes that came too soon after a report to be reported themselves */
    struct places inputs;
    struct places outputs;
    int providers[STATION_PLACES]; /* of each input, what was reported last: its IOPS, and 256 if the device runs; -1: nothing yet */
    uint32_t submodules[STATION_PLACES]; /* of each submodule of the plan, what was reported last (enum pn_known) */
    struct reasons reasons;
    char stuck[WAITING_WORDS]; /* what the controller waited for when it ended */
    struct holders holders; /* of the plan's name */
    uint8_t device[6];      /* the other end of the relation, to which the cyclic frames go */
    int has_device;
    uint32_t release;  /* the sequence number of the Release */
    unsigned releases; /* that were sent */
    uint64_t interval; /* of cyclic frames, in nanoseconds */
    int alarms[2];     /* of each priority, the number of the last alarm that was reported; -1: none yet */
    struct access access;
    struct signals *signals; /* of all relations; NULL: data is printed in octets alone */
    int has_octets;   /* data is printed in octets: the lines `input` and `provider` */
    int is_stopped;   /* by a line: it is not started again by itself */
    int is_wanted;    /* by a line: it is started again once it has ended */
    uint32_t refused; /* the number of the last refused record that was reported, from 1 on */
    /* Statistics. */
    struct histogram intervals; /* between received frames */
    struct histogram jitter;    /* how far these differ from the plan's */
    uint64_t last_cyclic;       /* when the last one arrived; 0: none yet */
    uint16_t last_counter;
    uint64_t lost;
    uint64_t cyclic;
};

/* Reads the plan of this file. If it is not valid, ends the program with a message. */
void relation_open(struct relation *relation, const char *file);

/* Makes the controller, also again after its end, with new numbers. */
void relation_make(struct relation *relation, struct loop *loop);

/* The line `station` of the answer to `stations`. */
void relation_answer_station(const struct relation *relation);

/* Reports what the plan says, before the start. */
void relation_introduce(struct relation *relation, lines_writer tell);

/* Sends the first frame, and sets the outputs that were set before. */
void relation_begin(struct relation *relation);

/* Hands in the units of time that the loop got since the last time, and sends the frames that are due. */
void relation_tick(struct relation *relation);

/* Hands in a received frame, and sends the answer. */
void relation_take(struct relation *relation, const uint8_t *octets, size_t length);

/* Hands in a frame of ARP, ICMP or LLDP, and sends the answer, at the relation that answers for the address. */
void relation_serve(struct relation *relation, const uint8_t *octets, size_t length);

/* Reports the neighbour by LLDP of the relation that answers for the address, if it is another one than before. */
void relation_look_at_neighbour(struct relation *relation);

/* Reads a packet of ARP whose sender has the address of the plan's station, for the lines `waiting` and for a report of another station. */
void relation_hear_arp(struct relation *relation, const uint8_t *octets, size_t length);

/* Whether it gets time: its controller is not over, or it answers for the address. */
int relation_needs_time(const struct relation *relation);

/* Reports the inputs and the alarm of such a frame. `before` is the state before it. */
void relation_look_at_data(struct relation *relation, const uint8_t *octets, size_t length, uint32_t before);

/* Stops the controller, which releases the relation. */
void relation_stop(struct relation *relation);

/* Whether the state is another one than before; it is noted. */
int relation_is_changed(struct relation *relation);

/* Reports the state. */
void relation_tell_state(struct relation *relation);

/* Reports what the controller waits for, now and then. */
void relation_tell_waiting(struct relation *relation);

/* Whether the controller has ended, and does not wait any more for the answer to its Release. */
int relation_is_over(const struct relation *relation);

/* Its state, as text. */
const char *relation_state(const struct relation *relation);

/* Hands in the request of the application. Returns 0 if the relation has ended in the time before it. */
int relation_request(struct relation *relation, const struct access *access, const uint8_t *octets, size_t length);

/* Fills in the answer to the last request. Returns whether there is one. */
int relation_answer(struct relation *relation, struct access_answer *answer);

/* The line `restart`: ends the relation, after which the program starts it again. */
void relation_restart(struct relation *relation, char *words[]);

/* Hands in an output, whose octets were changed. */
void relation_put(struct relation *relation, struct place *place);

/* The line `give`, with its words. */
void relation_give(struct relation *relation, char *words[]);

/* The line `status`, with its words. */
void relation_rate(struct relation *relation, char *words[]);

/* The line `show`. */
void relation_show(struct relation *relation);

/* Parts of the statistics: received and lost frames; the intervals between them. */
void relation_tell_cyclic(struct relation *relation, lines_writer tell);
void relation_tell_times(struct relation *relation, lines_writer tell);

/* Writes the status in one line. */
void relation_status(const struct relation *relation, char *text, size_t size);

#endif
