/* Where the parts of a Versatile Express with a Cortex-A9 are (QEMU's vexpress-a9: the older memory map). */
#ifndef BOARD_ADDRESSES_H
#define BOARD_ADDRESSES_H

#include <stdint.h>

#define REGISTER(address) (*(volatile uint32_t *)(uintptr_t)(address))

#define SYSTEM 0x10000000u  /* system registers */
#define UART 0x10009000u    /* PL011 */
#define TIMER 0x10011000u   /* SP804, counts microseconds */
#define PRIVATE 0x1E000000u /* of the processor: interrupts, watchdog */
#define NOR 0x40000000u
#define LAN9118_BASE 0x4E000000u

/* Numbers of interrupts of the controller. */
#define WATCHDOG_INTERRUPT 30u
#define TIMER_INTERRUPT 34u
#define CARD_INTERRUPT 47u

#endif
