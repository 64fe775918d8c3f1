/* Durations, counted by microseconds; those from 8,192 microseconds on in wider steps. */
#ifndef HOST_HISTOGRAM_H
#define HOST_HISTOGRAM_H

#include <stdint.h>

#define HISTOGRAM_FINE 8192 /* shorter durations are counted by the microsecond: 2 to the power of 13 */
#define HISTOGRAM_STEPS 128 /* in which each doubling from there on is divided */
#define HISTOGRAM_DOUBLINGS 18 /* up to 2,147 seconds; longer durations are counted in the last step */
#define HISTOGRAM_COUNTS (HISTOGRAM_FINE + HISTOGRAM_STEPS * HISTOGRAM_DOUBLINGS)

struct histogram {
    uint64_t counts[HISTOGRAM_COUNTS];
    uint64_t total;
    uint64_t most; /* nanoseconds */
};

/* Counts one duration, in nanoseconds. */
void histogram_put(struct histogram *histogram, uint64_t nanoseconds);

/* A duration in microseconds that this many of a thousand do not exceed: the shortest one, or from 8,192 microseconds on at most 1/128 longer.
 * It is never longer than the longest that was counted. */
uint64_t histogram_within(const struct histogram *histogram, unsigned thousandths);

#endif
