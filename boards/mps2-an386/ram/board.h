/* The board: QEMU's mps2-an386, a Cortex-M4 whose debugger is the host (semihosting). */
#ifndef BOARD_H
#define BOARD_H

#include <stddef.h>
#include <stdint.h>

/* Writes a text, or a number, on the host's standard output. */
void board_say(const char *text);
void board_say_number(uint32_t number);

/* Ends the program. The status of QEMU is 0, or 1 if it failed. */
_Noreturn void board_end(int has_failed);

/* Fills the unused stack with a pattern. board_depth returns how many octets below the caller's frame were overwritten since. */
void board_paint(void);
uint32_t board_depth(void);

#endif
