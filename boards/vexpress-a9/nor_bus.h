/* How the driver of the flash reaches its chips. A board implements these functions, and so does a model of the chips in a test. */
#ifndef NOR_BUS_H
#define NOR_BUS_H

#include <stdint.h>

/* Ticks of nor_bus_ticks in a microsecond, rounded up: with it the limits of calls are computed. */
#define NOR_TICKS 24u

/* One cycle of the bus: a word of 32 bits, the low half of the first chip and the high half of the second one. `place` counts octets from the
 * beginning of the flash and is a multiple of 4. All cycles before it have ended. */
uint32_t nor_bus_read(uint32_t place);
void nor_bus_write(uint32_t place, uint32_t word);

/* A counter of 32 bits that never stops. */
uint32_t nor_bus_ticks(void);

#endif
