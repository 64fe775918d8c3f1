/* The flash file alone: chip FILE. A program call only turns ones to zeros and an erase makes ones, with any contents of the file; a call
 * that is not within a sector is refused; the file holds what was asked, and nothing else. */
#include "chip.h"
#include <stdio.h>
#include <stdlib.h>
#include <string.h>

static uint8_t wanted[2 * PN_SECTOR_SIZE], found[2 * PN_SECTOR_SIZE], octets[PN_SECTOR_SIZE];
static uint64_t seed = 1;

static uint32_t drawn(uint32_t below)
{
    seed = seed * 6364136223846793005u + 1442695040888963407u;
    return (uint32_t)(seed >> 33) % below;
}

static void must(int is_so, const char *what)
{
    if (is_so)
        return;
    printf("chip: %s\n", what);
    exit(1);
}

static void is_as_wanted(const char *path)
{
    FILE *file = fopen(path, "rb");
    must(file != NULL && fread(found, 1, sizeof found, file) == sizeof found && fgetc(file) == EOF, "the file has another length");
    fclose(file);
    must(memcmp(found, wanted, sizeof wanted) == 0, "the file holds something else than what was asked");
}

static void program(struct chip *chip)
{
    uint32_t sector = drawn(2), place = drawn(PN_SECTOR_SIZE + 1), length = drawn(PN_SECTOR_SIZE - place + 1);
    for (uint32_t i = 0; i < length; i++)
        octets[i] = (uint8_t)drawn(256);
    must(chip_program(chip, sector, place, octets, length) == 0, "a program call");
    for (uint32_t i = 0; i < length; i++)
        wanted[sector * PN_SECTOR_SIZE + place + i] &= octets[i];
}

static void erase(struct chip *chip)
{
    uint32_t sector = drawn(2);
    must(chip_erase(chip, sector) == 0, "an erase");
    memset(wanted + sector * PN_SECTOR_SIZE, 0xFF, PN_SECTOR_SIZE);
}

static void misuse(struct chip *chip)
{
    must(chip_program(chip, 2, 0, octets, 1) != 0, "there is no third sector");
    must(chip_program(chip, 0, PN_SECTOR_SIZE, octets, 1) != 0 && chip_program(chip, 1, 1, octets, PN_SECTOR_SIZE) != 0 &&
             chip_program(chip, 1, PN_SECTOR_SIZE + 1, octets, 0) != 0 && chip_program(chip, 1, 2, octets, UINT32_MAX) != 0,
         "a call beyond a sector's end");
    must(chip_erase(chip, 2) != 0, "no third sector is erased");
}

int main(int count, char *words[])
{
    static struct chip chip;
    if (count != 2)
        return 64;
    memset(wanted, 0xFF, sizeof wanted);
    chip_open(&chip, words[1]);
    must(chip.is_new && chip_settle(&chip) == 0, "a new file");
    is_as_wanted(words[1]);
    for (int i = 0; i < 400; i++) {
        if (drawn(5) == 0)
            erase(&chip);
        else
            program(&chip);
        misuse(&chip);
        is_as_wanted(words[1]);
    }
    must(chip_settle(&chip) == 0 && memcmp(chip.sectors, wanted, sizeof wanted) == 0, "what a start reads");
    puts("400 calls");
    return 0;
}
