/* Where the registers of this board are. */
#ifndef BOARD_ADDRESSES_H
#define BOARD_ADDRESSES_H

#define LAN9118_BASE 0x40200000u
#define TIMER_BASE 0x40000000u
#define UART_BASE 0x40004000u
#define WATCHDOG_BASE 0x40008000u
#define LAN9118_INTERRUPT 13u

/* The clock of the processor and of its timers, in Hz. */
#define CLOCK_HZ 25000000u

#endif
