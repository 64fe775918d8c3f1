#include "nor.h"
#include "nor_bus.h"
#include <stddef.h>

/* Commands of the Intel command set, for each chip. */
enum command {
    READ_ARRAY = 0xFF,
    READ_STATUS = 0x70,
    CLEAR_STATUS = 0x50,
    QUERY = 0x98,
    LOCKING = 0x60,
    ERASE = 0x20,
    PROGRAM = 0x40,
    BUFFERED = 0xE8,
    CONFIRM = 0xD0
};

/* Bits of the status register (SR). */
enum status { READY = 0x80, ERASE_SUSPENDED = 0x40, ERASE_FAILED = 0x20, PROGRAM_FAILED = 0x10, VOLTAGE_IS_LOW = 0x08, PROGRAM_SUSPENDED = 0x04, IS_LOCKED = 0x02 };

/* Places of CFI, in words of a chip. Numbers of two octets have the lower one first. */
enum query {
    CFI_QRY = 0x10,
    CFI_COMMAND_SET = 0x13,
    CFI_WORD_TIME = 0x1F,   /* 2^n microseconds typically */
    CFI_BUFFER_TIME = 0x20, /* the same of a buffer */
    CFI_ERASE_TIME = 0x21,  /* 2^n milliseconds */
    CFI_WORD_MOST = 0x23,   /* at most 2^n times that; then of a buffer and of an erase */
    CFI_BUFFER_MOST = 0x24,
    CFI_ERASE_MOST = 0x25,
    CFI_SIZE = 0x27,        /* 2^n octets */
    CFI_BUFFER = 0x2A,      /* 2^n octets */
    CFI_REGIONS = 0x2C,     /* regions of blocks of equal size */
    CFI_BLOCK = 0x2F        /* octets of a block of the first region, divided by 256 */
};

#define CHIPS 2u
/* The Intel command sets: extended and standard. */
#define INTEL_EXTENDED 1u
#define INTEL_STANDARD 3u
/* The longest buffer that is used, in octets of both chips. A product may have another one; 0 programs word by word. */
#ifndef NOR_MOST_BUFFER
#define NOR_MOST_BUFFER 512u
#endif
/* The longest time that is waited for: a minute. */
#define LONGEST (60u * 1000000u)
/* Words that lead out of every command that a reset of the processor left half given: the longest buffer, its count and its confirmation. */
#define ESCAPES (1024u + 2u)

/* The same octet or word of 16 bits for both chips. */
static uint32_t both(uint32_t half)
{
    return half | half << 16;
}

static void command(uint32_t place, uint32_t octet)
{
    nor_bus_write(place & ~3u, both(octet));
}

/* What the statuses of both chips say, once both are ready. */
static enum nor_fault fault_of(uint32_t statuses)
{
    uint32_t status = (statuses | statuses >> 16) & 0xFF;
    if ((status & VOLTAGE_IS_LOW) != 0)
        return NOR_LOW_VOLTAGE;
    if ((status & IS_LOCKED) != 0)
        return NOR_LOCKED;
    if ((status & (ERASE_SUSPENDED | PROGRAM_SUSPENDED)) != 0 || (status & (ERASE_FAILED | PROGRAM_FAILED)) == (ERASE_FAILED | PROGRAM_FAILED))
        return NOR_SEQUENCE;
    if ((status & ERASE_FAILED) != 0)
        return NOR_ERASE;
    return (status & PROGRAM_FAILED) != 0 ? NOR_PROGRAM : NOR_OK;
}

/* Polls the statuses until both chips are ready. The time is read before the status, so an interrupt between the two costs no call. */
static enum nor_fault wait_ready(uint32_t place, uint32_t limit)
{
    uint32_t begun = nor_bus_ticks();
    for (;;) {
        uint32_t passed = nor_bus_ticks() - begun;
        uint32_t statuses = nor_bus_read(place & ~3u);
        if ((statuses & both(READY)) == both(READY))
            return fault_of(statuses);
        if (passed > limit)
            return NOR_TIMEOUT;
    }
}

/* Unlocks a block. While a chip is busy it does not read this. */
static enum nor_fault unlock(uint32_t place, uint32_t limit)
{
    command(place, LOCKING);
    command(place, CONFIRM);
    return wait_ready(place, limit);
}

/* Ends a call: clears the bits of its fault, and reads the array again. The chips must not be asked for more while they are busy. QEMU's
 * chip also clears SR.7 with the faults, and sets it with the next command: so the block is unlocked once more. */
static enum nor_fault end(const struct nor_shape *shape, uint32_t place, enum nor_fault fault)
{
    if (fault == NOR_TIMEOUT)
        return fault;
    if (fault != NOR_OK) {
        command(place, CLEAR_STATUS);
        (void)unlock(place, shape->erase_limit);
    }
    command(place, READ_ARRAY);
    return fault;
}

/* Waits until no chip is busy with an earlier call. How that one ended does not matter: its caller counted it as failed. */
static enum nor_fault settle(const struct nor_shape *shape, uint32_t place)
{
    enum nor_fault fault;
    command(place, READ_STATUS);
    fault = wait_ready(place, shape->erase_limit);
    (void)end(shape, place, fault);
    return fault == NOR_TIMEOUT ? NOR_TIMEOUT : NOR_OK;
}

/* --- What the chips are --- */

/* An octet of CFI, which both chips must have. Sets `*differ` if they do not. */
static uint32_t asked(uint32_t word, int *differ)
{
    uint32_t found = nor_bus_read(word * 2 * CHIPS);
    if (found >> 16 != (found & 0xFFFF))
        *differ = 1;
    return found & 0xFF;
}

static uint32_t asked_pair(uint32_t word, int *differ)
{
    return asked(word, differ) | asked(word + 1, differ) << 8;
}

/* 2^n, or `most` if that is less. */
static uint32_t power(uint32_t exponent, uint32_t most)
{
    return exponent < 32 && 1u << exponent < most ? 1u << exponent : most;
}

/* The longest time of a call in ticks: 2^typical times 2^most times `unit` microseconds. */
static uint32_t limit_of(uint32_t typical, uint32_t most, uint32_t unit)
{
    return power(typical + most, LONGEST / unit) * unit * NOR_TICKS;
}

/* Reads what CFI says. */
static enum nor_fault query(struct nor_shape *shape)
{
    int differ = 0;
    uint32_t set = asked_pair(CFI_COMMAND_SET, &differ);
    if (asked(CFI_QRY, &differ) != 'Q' || asked(CFI_QRY + 1, &differ) != 'R' || asked(CFI_QRY + 2, &differ) != 'Y' || (set != INTEL_EXTENDED && set != INTEL_STANDARD))
        return NOR_NO_CHIP;
    shape->size = CHIPS * power(asked(CFI_SIZE, &differ), 1u << 30);
    shape->block = CHIPS * 256 * asked_pair(CFI_BLOCK, &differ);
    shape->buffer = asked_pair(CFI_BUFFER, &differ) == 0 ? 0 : power(asked(CFI_BUFFER, &differ) + 1, NOR_MOST_BUFFER); /* of both chips */
    shape->word_limit = limit_of(asked(CFI_WORD_TIME, &differ), asked(CFI_WORD_MOST, &differ), 1);
    shape->buffer_limit = limit_of(asked(CFI_BUFFER_TIME, &differ), asked(CFI_BUFFER_MOST, &differ), 1);
    shape->erase_limit = limit_of(asked(CFI_ERASE_TIME, &differ), asked(CFI_ERASE_MOST, &differ), 1000);
    /* The shape is that of the first region: with several of them the blocks would not be equal. */
    return differ != 0 || asked(CFI_REGIONS, &differ) != 1 || shape->block == 0 || shape->size % shape->block != 0 ? NOR_NO_CHIP : NOR_OK;
}

/* If only the processor was reset, a chip may wait for the rest of a command. All ones are data that programs nothing, no confirmation, and
 * else the command that reads the array. */
static void escape(void)
{
    for (uint32_t i = 0; i < ESCAPES; i++)
        nor_bus_write(0, 0xFFFFFFFFu);
}

enum nor_fault nor_start(struct nor_shape *shape)
{
    enum nor_fault fault;
    escape();
    command(0, READ_STATUS);
    /* Before CFI is read, no limit is known but the longest. */
    if (wait_ready(0, LONGEST * NOR_TICKS) == NOR_TIMEOUT)
        return NOR_TIMEOUT;
    command(0, CLEAR_STATUS);
    command(2 * CHIPS * 0x55, QUERY);
    fault = query(shape);
    command(0, READ_ARRAY);
    return fault;
}

enum nor_fault nor_unlock(const struct nor_shape *shape, uint32_t place)
{
    return place >= shape->size ? NOR_BEYOND : end(shape, place, unlock(place, shape->erase_limit));
}

/* --- Reading, programming, erasing --- */

/* Whether octets lie in one block. */
static int is_within(const struct nor_shape *shape, uint32_t place, uint32_t length)
{
    return place < shape->size && length <= shape->block && place % shape->block <= shape->block - length;
}

/* An octet of the array. */
static uint8_t octet_at(uint32_t place)
{
    return (uint8_t)(nor_bus_read(place & ~3u) >> (place % 4 * 8));
}

enum nor_fault nor_read(const struct nor_shape *shape, uint32_t place, uint8_t *octets, uint32_t length)
{
    enum nor_fault fault = is_within(shape, place, length) ? settle(shape, place) : NOR_BEYOND;
    for (uint32_t i = 0; fault == NOR_OK && i < length; i++)
        octets[i] = octet_at(place + i);
    return fault;
}

/* One word. */
static enum nor_fault program_word(const struct nor_shape *shape, uint32_t place, uint32_t word)
{
    command(place, PROGRAM);
    nor_bus_write(place, word);
    return wait_ready(place, shape->word_limit);
}

/* `count` words at once, which lie in one buffer: its beginning is a multiple of its size. */
static enum nor_fault program_buffer(const struct nor_shape *shape, uint32_t place, const uint32_t *words, uint32_t count)
{
    enum nor_fault fault;
    command(place, BUFFERED);
    fault = wait_ready(place, shape->buffer_limit); /* for a free buffer */
    if (fault != NOR_OK)
        return fault;
    command(place, count - 1);
    for (uint32_t i = 0; i < count; i++)
        nor_bus_write(place + i * 4, words[i]);
    command(place, CONFIRM);
    return wait_ready(place, shape->buffer_limit);
}

/* The words from `place` on, if there is more than one and the chips have a buffer at once. */
static enum nor_fault program_words(const struct nor_shape *shape, uint32_t place, const uint32_t *words, uint32_t count)
{
    enum nor_fault fault = NOR_OK;
    if (shape->buffer != 0 && count > 1)
        return program_buffer(shape, place, words, count);
    for (uint32_t i = 0; fault == NOR_OK && i < count; i++)
        fault = program_word(shape, place + i * 4, words[i]);
    return fault;
}

/* Compares the array with what was programmed. */
static enum nor_fault compare(uint32_t place, const uint32_t *words, uint32_t count)
{
    for (uint32_t i = 0; i < count; i++)
        if (nor_bus_read(place + i * 4) != words[i])
            return NOR_DIFFERS;
    return NOR_OK;
}

/* Octets that lie in one piece: a buffer, or as many octets if the chips have none. Each word is what the array has with the zeros of the
 * octets. Words at either end that stay as they are get no command. */
static enum nor_fault program_piece(const struct nor_shape *shape, uint32_t place, const uint8_t *octets, uint32_t length)
{
    static uint32_t words[NOR_MOST_BUFFER == 0 ? 16 : NOR_MOST_BUFFER / 4];
    uint32_t first = place & ~3u, begin = 0, count = (place + length + 3 - first) / 4;
    enum nor_fault fault;
    for (uint32_t i = 0; i < count; i++)
        words[i] = nor_bus_read(first + i * 4);
    for (uint32_t i = 0; i < length; i++)
        words[(place + i - first) / 4] &= ~((uint32_t)(uint8_t)~octets[i] << (place + i) % 4 * 8);
    while (begin < count && nor_bus_read(first + begin * 4) == words[begin])
        begin++;
    while (count > begin && nor_bus_read(first + (count - 1) * 4) == words[count - 1])
        count--;
    if (begin == count)
        return NOR_OK;
    fault = end(shape, first, program_words(shape, first + begin * 4, words + begin, count - begin));
    return fault != NOR_OK ? fault : compare(first + begin * 4, words + begin, count - begin);
}

enum nor_fault nor_program(const struct nor_shape *shape, uint32_t place, const uint8_t *octets, uint32_t length)
{
    uint32_t piece = shape->buffer != 0 ? shape->buffer : 64;
    enum nor_fault fault = is_within(shape, place, length) ? NOR_OK : NOR_BEYOND;
    while (fault == NOR_OK && length != 0) {
        uint32_t room = piece - place % piece, now = length < room ? length : room;
        fault = program_piece(shape, place, octets, now);
        place += now;
        octets += now;
        length -= now;
    }
    return fault;
}

enum nor_fault nor_erase(const struct nor_shape *shape, uint32_t place, uint32_t length)
{
    enum nor_fault fault;
    if (!is_within(shape, place, length) || place % shape->block != 0)
        return NOR_BEYOND;
    command(place, ERASE);
    command(place, CONFIRM);
    fault = end(shape, place, wait_ready(place, shape->erase_limit));
    for (uint32_t i = 0; fault == NOR_OK && i < length; i += 4)
        if (nor_bus_read(place + i) != 0xFFFFFFFFu)
            fault = NOR_DIFFERS;
    return fault;
}

const char *nor_text(enum nor_fault fault)
{
    static const char *const texts[] = {"done", "no pair of chips with the Intel command set", "a chip is busy for too long", "the erase failed", "the program failed",
                                        "a chip read other commands", "the voltage is too low", "the block is locked", "the chips hold something else", "beyond a block"};
    return (size_t)fault < sizeof texts / sizeof *texts ? texts[fault] : "unknown";
}
