/* Counts for figures: cycles of the timer while the processor does not sleep. Only in a firmware that is built with METER=1; else these are nothing. */
#ifndef METER_H
#define METER_H

/* What is counted: a turn of the loop with its interrupts, a start of the device, a received frame with its work. */
enum { METER_TURN, METER_BOOT, METER_FRAME, METERS };

#ifdef METER
void meter_begin(int what);
void meter_end(int what);
void meter_tell(void); /* writes the counts, and begins again */
#else
#define meter_begin(what) ((void)0)
#define meter_end(what) ((void)0)
#define meter_tell() ((void)0)
#endif

/* Just before the processor sleeps, and just after it. */
#define meter_sleeps() meter_end(METER_TURN)
#define meter_wakes() meter_begin(METER_TURN)

#endif
