/* The histogram alone: what is counted below 8,192 microseconds is reported exactly, what is above at most 1/128 too long, and nothing beyond the
 * longest. */
#include "histogram.h"
#include <inttypes.h>
#include <stdio.h>
#include <stdlib.h>
#include <string.h>

static void must(int is_so, const char *what, uint64_t microseconds, uint64_t told)
{
    if (is_so)
        return;
    printf("histogram: %s: %" PRIu64 " us, reported as %" PRIu64 "\n", what, microseconds, told);
    exit(1);
}

/* One duration among longer ones, so that the longest does not say it. */
static uint64_t told_among(uint64_t microseconds, uint64_t longest)
{
    static struct histogram histogram;
    memset(&histogram, 0, sizeof histogram);
    for (int i = 0; i < 3; i++)
        histogram_put(&histogram, microseconds * 1000);
    histogram_put(&histogram, longest * 1000);
    must(histogram_within(&histogram, 1000) == longest, "the longest", longest, histogram_within(&histogram, 1000));
    return histogram_within(&histogram, 500);
}

static void one(uint64_t microseconds)
{
    uint64_t told = told_among(microseconds, 4000000000);
    must(told >= microseconds, "it is not exceeded", microseconds, told);
    must(told - microseconds <= (microseconds < 8192 ? 0 : microseconds / 128), "it is reported closely", microseconds, told);
    must(told_among(microseconds, microseconds) == microseconds, "the longest is not exceeded", microseconds, told_among(microseconds, microseconds));
}

int main(void)
{
    unsigned count = 0;
    for (uint64_t microseconds = 0; microseconds < 17000; microseconds += microseconds % 8192 < 300 ? 1 : 97, count++)
        one(microseconds);
    for (uint64_t power = 16384; power <= 1u << 30; power *= 2, count += 3)
        for (uint64_t each = power - 1; each <= power + 1; each++)
            one(each);
    for (uint64_t each = 16000; each <= 2147000000; each += each / 97, count++)
        one(each);
    printf("%u durations\n", count);
    return 0;
}
