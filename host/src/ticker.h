/* Time, in units of 31.25 microseconds of a monotonic clock, and the timer that wakes the program for them. */
#ifndef HOST_TICKER_H
#define HOST_TICKER_H

#include <stdint.h>

#define SECOND UINT64_C(1000000000) /* nanoseconds */

struct ticker {
    int fd;             /* becomes readable each period, or when the armed unit is over */
    uint64_t started;   /* nanoseconds of the clock */
    uint64_t given;     /* units that were handed in or dropped */
    uint64_t period;    /* nanoseconds; 0 if it is armed for one unit after another */
    uint64_t armed;     /* the unit that is armed, counted from the start; 0 if none is */
    uint64_t forgotten; /* units that were dropped in stalls */
    uint64_t stalls;    /* how often that happened */
    uint64_t longest;   /* the most units that were due at once */
    uint64_t told;      /* how many stalls were reported, and when */
    uint64_t told_at;
};

/* The clock, in nanoseconds. */
uint64_t ticker_now(void);

void ticker_open(struct ticker *ticker);

/* Wakes the program each `period` nanoseconds from now on. */
void ticker_pace(struct ticker *ticker, uint64_t period);

/* Wakes the program once, when this many units are over after those that were handed in. */
void ticker_arm(struct ticker *ticker, uint64_t units);

/* After a wake: the timer can be waited for again, if it has no period once it is armed. */
void ticker_wait_again(struct ticker *ticker);

/* How many units are over and not handed in yet. */
uint64_t ticker_over(const struct ticker *ticker);

/* The same; they now count as handed in. Units beyond `most` are dropped and counted, so that late
 * frames go out once, and not in a burst. */
uint32_t ticker_due(struct ticker *ticker, uint64_t most);

/* The same, at most `most`; those beyond are handed in later. */
uint32_t ticker_due_before(struct ticker *ticker, uint64_t most);

/* Whether to report stalls: some were not reported yet, and the last report was at least ten seconds ago. */
int ticker_tells(struct ticker *ticker);

#endif
