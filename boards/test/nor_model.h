/* Two CFI NOR chips of 16 bits side by side, in C: what boards/vexpress-a9/nor.c talks to in a test. Power can be cut in each cycle of the bus, and
 * calls can fail, be late, or never end. */
#ifndef NOR_MODEL_H
#define NOR_MODEL_H

#include <setjmp.h>
#include <stddef.h>
#include <stdint.h>

/* Octets of both chips together, and of a block of both. */
#define MODEL_SIZE 65536u
#define MODEL_BLOCK 8192u
/* Octets of a chip's buffer. */
#define MODEL_BUFFER 64u

/* What goes wrong with one operation of a chip: a word, a buffer, an erase, an unlock. */
struct model_trouble {
    uint32_t at;      /* which one, from 0 on */
    unsigned chips;   /* 1, 2 or 3 */
    uint8_t status;   /* bits of the status register that are set at its end */
    uint32_t late;    /* ticks that it takes longer; UINT32_MAX: it never ends */
    unsigned done;    /* of its bits: 0 none, 1 all, 2 some */
};

/* How much of an operation that power interrupts is done: none of its bits, all, some, or those of the first words. */
enum model_torn { TORN_NONE, TORN_ALL, TORN_SOME, TORN_FIRST, TORN_KINDS };

/* Where model_power_off jumps to when power is cut in a cycle of the bus. */
extern jmp_buf model_off;

/* Erased chips, with power on. */
void model_make(void);

/* Power off and on: the operations that go on are torn, the blocks are locked, and the arrays can be read. */
void model_restart(enum model_torn torn, uint64_t seed);

/* Cuts the power in this cycle from now on (0: the next one) by a jump to model_off; model_restart gives it back. Cycles are writes, and reads of a status. */
void model_cut(uint32_t cycles);
void model_cut_never(void);
uint32_t model_cycles(void);

/* Sets the trouble, or with NULL none. Operations are counted from now on. */
void model_order(const struct model_trouble *trouble);
uint32_t model_operations(void);

/* These bits of an octet never change again. */
void model_stick(uint32_t place, uint8_t bits);

/* A chip whose erase first turns all bits to 0. */
void model_programs_first(int is_so);

/* A chip that is another one, or is not there: its CFI has this octet in place of Q. */
void model_be(unsigned chip, uint8_t first);

/* The contents, beside any command. */
uint8_t model_octet(uint32_t place);
void model_set(uint32_t place, uint8_t octet);

/* The whole state, to go back to it. */
size_t model_size(void);
void model_keep(void *room);
void model_return(const void *room);

#endif
