/* What both programs wait for: a frame, the timer, a signal or a line. */
#ifndef HOST_WAKE_H
#define HOST_WAKE_H

#include "lines.h"
#include "ticker.h"
#include "wire.h"

struct wake {
    int signals;
    int has_frames; /* frames wait at the interface */
    int has_lines; /* a line may have arrived */
    int is_asked;  /* SIGUSR1: print statistics */
    int is_ended;  /* SIGTERM, SIGINT or SIGHUP */
};

/* From now on only wake_wait receives signals, and a closed reader causes no signal. */
void wake_open(struct wake *wake);

/* Waits until one of them arrives. */
void wake_wait(struct wake *wake, struct wire *wire, struct ticker *ticker, struct lines *lines);

/* Runs with this priority of the first-in first-out scheduler, in memory that is not swapped out. On failure, ends the program. */
void wake_realtime(int priority);

#endif
