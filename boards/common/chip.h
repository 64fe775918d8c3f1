/* The flash chip, as the device asks for it: two sectors of PN_SECTOR_SIZE octets. Each board has its own driver. */
#ifndef CHIP_H
#define CHIP_H

#include <stdint.h>

/* Prepares the chip. Returns 0, or another number if it cannot be used; then no device can be started. */
int chip_start(void);

/* Copies the present contents of a sector to `octets`, which has room for PN_SECTOR_SIZE. Returns 0 on success. */
int chip_read(uint32_t sector, uint8_t *octets);

/* Programs `length` octets into a sector, from `place` on: ones turn to zeros. Returns 0 once the chip holds them durably, and another
 * number if the chip refused or did not end in time: that counts as lost power. */
int chip_program(uint32_t sector, uint32_t place, const uint8_t *octets, uint32_t length);

/* Erases a sector: all its bits are one. Returns as chip_program does. */
int chip_erase(uint32_t sector);

#endif
