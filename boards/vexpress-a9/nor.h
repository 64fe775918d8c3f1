/* Two CFI NOR chips of 16 bits side by side in each word of 32 bits, with the Intel command set (P30, J3 and others). Each command goes to both
 * chips, and the status of both is read. A number other than NOR_OK is a call that the chips refused, that did not end in time, or whose
 * result is not there. */
#ifndef NOR_H
#define NOR_H

#include <stdint.h>

enum nor_fault {
    NOR_OK = 0,
    NOR_NO_CHIP = 1,     /* no pair of such chips answers */
    NOR_TIMEOUT = 2,     /* a chip is busy for longer than it says it may be */
    NOR_ERASE = 3,       /* SR.5: the erase failed */
    NOR_PROGRAM = 4,     /* SR.4: the program failed */
    NOR_SEQUENCE = 5,    /* SR.5 and SR.4, or SR.6 or SR.2: a chip read other commands, or stopped in one */
    NOR_LOW_VOLTAGE = 6, /* SR.3 */
    NOR_LOCKED = 7,      /* SR.1: the block is locked */
    NOR_DIFFERS = 8,     /* the chips report success, and hold something else */
    NOR_BEYOND = 9       /* the place is not in the flash, or the call passes the end of a block */
};

/* What the chips say of themselves (CFI), both together. */
struct nor_shape {
    uint32_t size;         /* octets of the flash */
    uint32_t block;        /* octets that are erased at once */
    uint32_t buffer;       /* octets that are programmed at once, 0 without a buffer */
    uint32_t word_limit;   /* the longest time of a word, of a buffer and of an erase, in ticks of the bus */
    uint32_t buffer_limit;
    uint32_t erase_limit;
};

/* Waits until a call that was cut off by a reset of the processor has ended, and asks the chips what they are. */
enum nor_fault nor_start(struct nor_shape *shape);

/* Unlocks the block of this place. */
enum nor_fault nor_unlock(const struct nor_shape *shape, uint32_t place);

/* Copies octets of the flash. If an earlier call timed out, it first waits until the chips have ended it: before that they could still change. */
enum nor_fault nor_read(const struct nor_shape *shape, uint32_t place, uint8_t *octets, uint32_t length);

/* Turns ones to zeros, and compares the result. No other octet changes, whatever the chips do with ones. */
enum nor_fault nor_program(const struct nor_shape *shape, uint32_t place, const uint8_t *octets, uint32_t length);

/* Erases the block that begins at this place, and looks whether its first `length` octets are all ones. */
enum nor_fault nor_erase(const struct nor_shape *shape, uint32_t place, uint32_t length);

/* The text of a fault. */
const char *nor_text(enum nor_fault fault);

#endif
