/* The loop of both programs: it waits for frames, time, lines and signals, and hands each to the program. */
#ifndef HOST_LOOP_H
#define HOST_LOOP_H

#include "histogram.h"
#include "lines.h"
#include "near.h"
#include "options.h"
#include "station.h"
#include "ticker.h"
#include "wake.h"
#include "wire.h"

/* A line that a program accepts, by its first word and the number of its words. The name of a station is not one of them. A word may have
 * several lines, with different numbers of words. */
struct command {
    const char *word;
    int count;
    /* NULL for the lines of the loop itself: `statistics`, and the one that ends the program if it is for the program alone. */
    void (*take)(void *context, char *words[]); /* NULL follows the last word */
    const char *help; /* its form and its effect; NULL if the line before it, with the same word, tells both */
};

/* What a program does at each event. Each function gets the context of the loop. */
struct events {
    uint32_t idle_most; /* the most units that are handed in at once while nothing is due at a unit of time */
    uint64_t look_each; /* nanoseconds between two calls of look_around */
    int (*is_over)(void *context);
    /* Hands in units of time, at least one. Returns how many of them remain. */
    uint32_t (*tick)(void *context, uint32_t units);
    /* How many units may pass until something is due. NULL if the program does not know it: then it wakes in its period. */
    uint32_t (*due)(void *context);
    void (*look)(void *context); /* reports what changed, after the time */
    void (*take_frame)(void *context, const uint8_t *octets, size_t length);
    /* Whether a word in front of a line is the name of a station; the line is then for this one. It is called with NULL after the line. NULL
     * if no line has a name. */
    int (*choose)(void *context, const char *name);
    /* Takes a whole line before its words are parted. Returns whether it is one of its lines. NULL if there are none. */
    int (*take_line)(void *context, char *line);
    const char *const *more_help; /* the forms and effects of these lines, and NULL; NULL if there are none */
    const char *const *more_words; /* the first words of these lines, and NULL; NULL if there are none */
    /* Compares a word that begins no line with the names of the stations. NULL if no line has a name. */
    void (*try_names)(void *context, struct near *near);
    /* Writes what waits for readers, at the end of each turn, and the units after which it has more to write. NULL for nothing. */
    void (*write)(void *context);
    uint32_t (*write_due)(void *context);
    const struct command *commands; /* the last one has no word */
    void (*statistics)(void *context, lines_writer tell);
    void (*look_around)(void *context); /* now and then; NULL for nothing */
};

struct loop {
    struct wire wire;
    struct ticker ticker;
    struct wake wake;
    struct lines lines;
    const struct events *events;
    void *context;
    uint64_t period; /* in which time is handed in, in nanoseconds; 0: when something is due */
    int is_idle;     /* whether nothing is due at a unit of time */
    uint32_t due;    /* without a period: how many units may pass until something is due */
    uint32_t apart;  /* without a period: the fewest units from one wake for the time to the next; 0 counts as 1 */
    uint64_t units;  /* of time that were handed in */
    uint64_t next_look;
    uint64_t wakes;
};

/* Opens the lines, the scheduler's priority and the signals. The interface is opened before, by wire_open. */
void loop_open(struct loop *loop, const struct shared_options *shared);

/* Starts the time; nothing is due at a unit of it yet. */
void loop_start(struct loop *loop, const struct events *events, void *context);

/* Sets whether nothing is due at a unit of time: then the program wakes only a hundred times a second, otherwise in its period. A program
 * without a period wakes when something is due, and needs none of this. */
void loop_pace(struct loop *loop, int is_idle);

/* Reports an interface that is down at the start. */
void loop_tell_link(struct loop *loop);

/* Runs until the program is over. */
void loop_run(struct loop *loop);

/* Parts of the statistics: the seconds and the frames; the time; the intervals between frames. */
void loop_tell_frames(struct loop *loop, lines_writer tell);
void loop_tell_time(struct loop *loop, lines_writer tell);
void loop_tell_intervals(struct loop *loop, const struct histogram *intervals, lines_writer tell);

/* Answers with a line for each place: the label, its slot, its subslot and its data. */
void loop_answer_places(struct loop *loop, const char *label, const struct places *places);

/* Ends the program if a call of the library did not return PN_OK: the program uses the library as its header says, so it cannot. */
void loop_must(uint32_t answer, const char *call);

#endif
