/* The flash of a station, in a file: the first sector, then the second. When a call returns, its effect is on the disk. */
#ifndef HOST_CHIP_H
#define HOST_CHIP_H

#include "nandutable.h"
#include <stdint.h>

struct chip {
    int fd;
    const char *path;
    int is_new; /* this start made the file */
    const char *why; /* the last failure, as text */
    uint8_t sectors[2][PN_SECTOR_SIZE];
    uint64_t programs;
    uint64_t erases;
    uint64_t faults;
};

/* Ends the program if the file of this path is one of its standard streams: only the calls below may write into it. */
void chip_keep_apart(const char *path);

/* Opens the file, or makes one of erased sectors, and locks it for this process alone. On failure, ends the program with a message. */
void chip_open(struct chip *chip, const char *path);

/* Reads both sectors, and writes back what it read. If the previous process was killed between write and fdatasync, or a sync failed, the
 * page cache may be ahead of the disk; now the disk has what the device starts from. Returns 0, or 1 if the file cannot be read or
 * written, or is no longer the one that was opened. */
int chip_settle(struct chip *chip);

/* The same after a call that failed: opens the file of this name again if it is another one than the file that was opened. A file that does not
 * exist is not made. Returns 0, or 1 as long as the file cannot be read and written. */
int chip_return(struct chip *chip);

/* chip_program turns ones to zeros from `place` on; chip_erase sets a sector to ones. They return 0, or 1 if the disk may not hold the
 * result: a write or a sync failed, or the file was removed, renamed, replaced, cut or written by somebody else since it was opened, so
 * the next start would not find it. A file that was changed in such a way is not written. */
int chip_program(struct chip *chip, uint32_t sector, uint32_t place, const uint8_t *octets, uint32_t length);
int chip_erase(struct chip *chip, uint32_t sector);

#endif
