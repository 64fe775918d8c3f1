/* The signals of all stations: what is printed of them, and the lines `set`, `get`, `names` and `modules`. What is printed goes to each reader as fast as
 * it reads; a signal that changes again before that is printed once. */
#ifndef HOST_SIGNALS_H
#define HOST_SIGNALS_H

#include "lines.h"
#include "relation.h"
#include "signal_table.h"

/* A value, as it is printed. */
struct signal_state {
    uint8_t *octets; /* of a bit: 1 or 0 */
    int is_good;
    uint64_t time; /* CLOCK_REALTIME, in microseconds */
};

struct signal {
    struct signal_entry entry;
    struct relation *relation;
    struct place *place;
    double deadband;            /* 0: each change is printed */
    struct signal_state newest; /* the present value */
    struct signal_state shown;  /* the value that was printed last, or that a reader gets next */
    uint64_t shown_at;          /* when that became so */
    int is_held;                /* it changed too soon after that */
};

/* The signals of a submodule in a direction, and whether its data are good. */
struct signal_group {
    unsigned first; /* in `sorted` */
    unsigned count;
    int is_good;
};

struct signal_station {
    int is_open; /* all its signals were printed since the exchange began */
    struct signal_group groups[2][STATION_PLACES];
};

enum signal_answer { ANSWER_NAMES, ANSWER_VALUES, ANSWER_MODULES, ANSWERS };

/* What a reader still gets. */
struct signal_reader {
    uint64_t turn;
    uint64_t *changed; /* a bit for each signal */
    unsigned changed_count;
    unsigned next_changed;
    unsigned wanted[ANSWERS]; /* answers to `names`, `get *` and `modules` */
    unsigned next[ANSWERS];   /* the signal or module that such an answer goes on with */
};

struct signals {
    struct signal *list;
    unsigned *sorted; /* the numbers of the signals, those of a submodule and direction together */
    unsigned count;
    struct signal_station *stations;
    struct relation *relations;
    unsigned station_count;
    struct signal_reader readers[LINES_TALKERS];
    uint64_t every; /* nanoseconds; 0: each change is printed at once */
    int has_times;
    unsigned held_count;
};

/* A deadband of the command line: NAME=NUMBER. */
struct signals_options {
    int has_times;
    uint64_t every;
    unsigned deadband_count;
    char **deadbands;
};

/* Reads the signals of all plans. If they are not valid, or a deadband is not one of a signal, ends the program with a message. */
void signals_open(struct signals *signals, struct relation *relations, unsigned count, const struct signals_options *options);

/* Looks for changes at a station, after a frame of it, or after a change of an output. */
void signals_look(struct signals *signals, struct relation *relation);

/* The exchange of a station has ended: all its signals are bad. */
void signals_end(struct signals *signals, struct relation *relation);

/* Takes a line, if it is `set`, `get`, `names` or `modules`. Returns whether it is. */
int signals_take(struct signals *signals, struct lines *lines, char *line);

/* Writes what readers have room for, up to a limit for each turn. */
void signals_write(struct signals *signals, struct lines *lines);

/* The units of time after which signals_write has more to do; UINT32_MAX for nothing. */
uint32_t signals_due(const struct signals *signals, struct lines *lines);

#endif
