/* What a board has beside its chip, clock and console. Each board implements these functions. */
#ifndef BOARD_H
#define BOARD_H

#include <stdint.h>

/* Starts the watchdog: it resets the processor if it is not fed for some seconds, longer than any call of the chip takes. */
void watchdog_start(void);

/* Feeds the watchdog. Only the loop calls it, each millisecond. */
void watchdog_feed(void);

/* Resets the processor, as the watchdog does. */
_Noreturn void board_reset(void);

/* Lets the interrupt of the network card wake the processor. Its handler calls lan9118_interrupt. */
void board_enable_card(void);

/* The deepest stack since the start, in octets. The start-up code paints all of the stack. */
uint32_t board_stack_used(void);

/* The cycles of the processor's clock, or of another fast one, while it did not sleep, modulo 2^32. For figures only. */
uint32_t board_cycles(void);

#endif
