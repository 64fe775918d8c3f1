/* The chip of a board without NOR flash: a file of the debugger's machine, by semihosting. It keeps what NOR promises: a program turns ones to zeros.
 * Each write is with the other machine's system when the call returns. */
#include "chip.h"
#include "nandutable.h"

enum { SYS_OPEN = 0x01, SYS_CLOSE = 0x02, SYS_WRITE = 0x05, SYS_READ = 0x06, SYS_SEEK = 0x0A, SYS_FLEN = 0x0C };
/* How fopen says them: "r+b" and "w+b". */
enum { READ_AND_WRITE = 3, NEW = 7 };

#define CHIP_SIZE (2u * PN_SECTOR_SIZE)
#define PIECE 64u

static uint32_t file;

static uint32_t ask_host(uint32_t operation, const void *block)
{
    register uint32_t first __asm__("r0") = operation;
    register uint32_t second __asm__("r1") = (uint32_t)(uintptr_t)block;
    __asm__ volatile("bkpt 0xAB" : "+r"(first) : "r"(second) : "memory");
    return first;
}

static uint32_t open_file(uint32_t mode)
{
    static const char name[] = "chip.flash";
    const uint32_t block[3] = {(uint32_t)(uintptr_t)name, mode, sizeof name - 1};
    return ask_host(SYS_OPEN, block);
}

/* Reads or writes all of these octets. Returns 0 on success. */
static int move(uint32_t operation, uint32_t place, const uint8_t *octets, uint32_t length)
{
    const uint32_t seek[2] = {file, place};
    const uint32_t block[3] = {file, (uint32_t)(uintptr_t)octets, length};
    return ask_host(SYS_SEEK, seek) != 0 || ask_host(operation, block) != 0;
}

static int fill(uint32_t place, uint32_t length)
{
    uint8_t ones[PIECE];
    memset(ones, 0xFF, sizeof ones);
    for (uint32_t at = 0; at < length; at += PIECE)
        if (move(SYS_WRITE, place + at, ones, PIECE) != 0)
            return 1;
    return 0;
}

int chip_start(void)
{
    file = open_file(READ_AND_WRITE);
    if (file != 0xFFFFFFFFu)
        return ask_host(SYS_FLEN, &file) == CHIP_SIZE ? 0 : 1;
    file = open_file(NEW);
    return file == 0xFFFFFFFFu || fill(0, CHIP_SIZE) != 0;
}

int chip_read(uint32_t sector, uint8_t *octets)
{
    return move(SYS_READ, sector * PN_SECTOR_SIZE, octets, PN_SECTOR_SIZE);
}

int chip_program(uint32_t sector, uint32_t place, const uint8_t *octets, uint32_t length)
{
    uint8_t piece[PIECE];
    for (uint32_t at = 0; at < length; at += PIECE) {
        uint32_t count = length - at < PIECE ? length - at : PIECE, from = sector * PN_SECTOR_SIZE + place + at;
        if (move(SYS_READ, from, piece, count) != 0)
            return 1;
        for (uint32_t i = 0; i < count; i++)
            piece[i] &= octets[at + i];
        if (move(SYS_WRITE, from, piece, count) != 0)
            return 1;
    }
    return 0;
}

int chip_erase(uint32_t sector)
{
    return fill(sector * PN_SECTOR_SIZE, PN_SECTOR_SIZE);
}
