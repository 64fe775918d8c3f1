#include "histogram.h"

static uint64_t microseconds_of(uint64_t nanoseconds)
{
    return nanoseconds / 1000 + (nanoseconds % 1000 >= 500);
}

/* The place of a duration among the counts. */
static unsigned place_of(uint64_t microseconds)
{
    unsigned doubling = 0;
    if (microseconds < HISTOGRAM_FINE)
        return (unsigned)microseconds;
    while (microseconds >> doubling >= 2 * HISTOGRAM_FINE)
        doubling++;
    if (doubling >= HISTOGRAM_DOUBLINGS)
        return HISTOGRAM_COUNTS - 1;
    return HISTOGRAM_FINE + doubling * HISTOGRAM_STEPS + (unsigned)((microseconds >> doubling) - HISTOGRAM_FINE) / (HISTOGRAM_FINE / HISTOGRAM_STEPS);
}

/* The longest duration that is counted at a place, before the last one. */
static uint64_t longest_at(unsigned place)
{
    unsigned doubling, step;
    if (place < HISTOGRAM_FINE)
        return place;
    doubling = (place - HISTOGRAM_FINE) / HISTOGRAM_STEPS;
    step = (place - HISTOGRAM_FINE) % HISTOGRAM_STEPS;
    return ((HISTOGRAM_FINE + (uint64_t)(step + 1) * (HISTOGRAM_FINE / HISTOGRAM_STEPS)) << doubling) - 1;
}

void histogram_put(struct histogram *histogram, uint64_t nanoseconds)
{
    histogram->counts[place_of(microseconds_of(nanoseconds))]++;
    histogram->total++;
    if (nanoseconds > histogram->most)
        histogram->most = nanoseconds;
}

uint64_t histogram_within(const struct histogram *histogram, unsigned thousandths)
{
    uint64_t below = 0, wanted = histogram->total * thousandths, most = microseconds_of(histogram->most);
    for (unsigned i = 0; i < HISTOGRAM_COUNTS - 1; i++) {
        below += histogram->counts[i];
        if (below * 1000 >= wanted)
            return longest_at(i) < most ? longest_at(i) : most;
    }
    return most;
}
