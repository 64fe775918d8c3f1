/* The clock: units of PN_UNIT_NS (31.25 microseconds), and sleep. Each board has its own timer. */
#ifndef CLOCK_H
#define CLOCK_H

#include <stdint.h>

/* Starts the counter that tells the time, which nothing stops, and the timer that wakes the processor. */
void clock_start(void);

/* The whole units that passed since the last call. The remainder is kept for the next call, so none is lost. */
uint32_t clock_units(void);

/* Sleeps until this many units, at most 8,000, have passed since the last call of clock_units, or until an interrupt. It may return earlier, as a
 * timer with a fixed period does. An interrupt that came since the last sleep is not slept over. */
void clock_sleep(uint32_t units);

#endif
