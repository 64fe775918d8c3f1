/* The flash of the device: two blocks of the NOR, the last two. Each block has one sector at its beginning, since an erase takes a whole block. */
#include "chip.h"
#include "console.h"
#include "nandutable.h"
#include "nor.h"

/* Not 0 for chips whose erase first turns all bits to 0; ask the maker. Cut off in that half, it could leave a sector that looks newer than the one in
 * use. So the first word of the sector, by which a start knows it, is turned to zeros before. */
#ifndef NOR_PROGRAMS_FIRST
#define NOR_PROGRAMS_FIRST 0
#endif

static struct nor_shape shape;

/* Where a sector begins. */
static uint32_t place_of(uint32_t sector)
{
    return shape.size - (2 - sector) * shape.block;
}

/* Says a fault. Returns 0 if no fault was found. */
static int say(const char *call, enum nor_fault fault)
{
    if (fault == NOR_OK)
        return 0;
    console_say("flash: ");
    console_say(call);
    console_say(": ");
    console_say(nor_text(fault));
    console_say("\n");
    return 1;
}

int chip_start(void)
{
    enum nor_fault fault = nor_start(&shape);
    if (fault == NOR_OK && (shape.block < PN_SECTOR_SIZE || shape.size < 2 * shape.block))
        fault = NOR_NO_CHIP;
    for (uint32_t sector = 0; fault == NOR_OK && sector < 2; sector++)
        fault = nor_unlock(&shape, place_of(sector));
    return say("start", fault);
}

int chip_read(uint32_t sector, uint8_t *octets)
{
    return sector > 1 || say("read", nor_read(&shape, place_of(sector), octets, PN_SECTOR_SIZE));
}

int chip_program(uint32_t sector, uint32_t place, const uint8_t *octets, uint32_t length)
{
    if (sector > 1 || place > PN_SECTOR_SIZE || length > PN_SECTOR_SIZE - place)
        return 1;
    return say("program", nor_program(&shape, place_of(sector) + place, octets, length));
}

int chip_erase(uint32_t sector)
{
    static const uint8_t zeros[4];
    if (sector > 1 || (NOR_PROGRAMS_FIRST && say("erase", nor_program(&shape, place_of(sector), zeros, sizeof zeros))))
        return 1;
    return say("erase", nor_erase(&shape, place_of(sector), PN_SECTOR_SIZE));
}
