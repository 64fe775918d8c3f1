#define _GNU_SOURCE
#include "chip.h"
#include "say.h"
#include "streams.h"
#include <errno.h>
#include <fcntl.h>
#include <libgen.h>
#include <limits.h>
#include <stdio.h>
#include <stdlib.h>
#include <string.h>
#include <sys/file.h>
#include <sys/stat.h>
#include <unistd.h>

#define CHIP_SIZE ((off_t)(2 * PN_SECTOR_SIZE))

/* Writes all octets from this place of the file on. Returns 0, or 1 on failure. */
static int write_at(int fd, const uint8_t *octets, size_t length, off_t place)
{
    while (length != 0) {
        ssize_t done = pwrite(fd, octets, length, place);
        if (done < 0 && errno == EINTR)
            continue;
        if (done <= 0)
            return 1;
        octets += done;
        place += done;
        length -= (size_t)done;
    }
    return 0;
}

/* Writes, and waits until the disk has it. */
static int write_durably(int fd, const uint8_t *octets, size_t length, off_t place)
{
    return write_at(fd, octets, length, place) != 0 || fdatasync(fd) != 0;
}

static int read_at(int fd, uint8_t *octets, size_t length, off_t place)
{
    while (length != 0) {
        ssize_t done = pread(fd, octets, length, place);
        if (done < 0 && errno == EINTR)
            continue;
        if (done <= 0)
            return 1;
        octets += done;
        place += done;
        length -= (size_t)done;
    }
    return 0;
}

/* Why a call failed. */
static const char *why_not(int number)
{
    return number == EFBIG ? "the greatest length of a file is less than that of a flash file (`ulimit -f`, LimitFSIZE=)" : strerror(number);
}

/* Locks the file of a descriptor for this process. */
static void lock(int fd, const char *path)
{
    if (flock(fd, LOCK_EX | LOCK_NB) == 0)
        return;
    if (errno == EWOULDBLOCK)
        fail(STATUS_IN_USE, "the flash file '%s' is in use by another process: one device runs on one file", path);
    fail(STATUS_INPUT, "the flash file '%s' cannot be locked: %s", path, strerror(errno));
}

/* Whether a path still refers to the file of a descriptor. */
static int is_named(int fd, const char *path)
{
    struct stat here, there;
    return fstat(fd, &here) == 0 && stat(path, &there) == 0 && here.st_dev == there.st_dev && here.st_ino == there.st_ino;
}

/* Makes a name durable: syncs its folder. Returns 0, or 1 on failure. */
static int sync_folder(const char *path)
{
    char *copy = strdup(path);
    int fd = copy == NULL ? -1 : open(dirname(copy), O_RDONLY | O_DIRECTORY | O_CLOEXEC), answer;
    free(copy);
    if (fd < 0)
        return 1;
    answer = fsync(fd) != 0;
    close(fd);
    return answer;
}

static _Noreturn void not_made(const char *path, const char *made)
{
    int why = errno;
    if (made != NULL)
        unlink(made);
    fail(STATUS_CREATE, "the flash file '%s' cannot be made: %s", path, why_not(why));
}

/* A file with the other name may be the flash of another device. One that an interrupted start left is shorter than a flash, or erased. */
static void judge_left(int fd, const char *made, const char *path)
{
    static uint8_t found[2 * PN_SECTOR_SIZE];
    struct stat left;
    int is_left = fstat(fd, &left) == 0 && S_ISREG(left.st_mode) && left.st_size <= CHIP_SIZE;
    if (is_left && left.st_size == CHIP_SIZE) {
        is_left = read_at(fd, found, sizeof found, 0) == 0;
        for (size_t i = 0; i < sizeof found; i++)
            is_left &= found[i] == 0xFF;
    }
    if (!is_left)
        fail(STATUS_CREATE, "the flash file '%s' cannot be made: it is made under the name '%s', which exists and is not empty: name another file, or move that one away",
             path, made);
}

/* Ends the program if the file of the other name is not this user's alone: who made it could write into it for ever, by the descriptor that he
 * has. */
static void judge_owner(int fd, const char *made, const char *path)
{
    struct stat found;
    if (fstat(fd, &found) != 0 || found.st_uid != geteuid() || found.st_nlink > 1 || (found.st_mode & (S_IWGRP | S_IWOTH)) != 0)
        fail(STATUS_CREATE, "the flash file '%s' cannot be made: it is made under the name '%s', which is a file that another user can write: remove it, and name a folder in which only this user may make files",
             path, made);
}

/* Makes a file of erased sectors under another name, syncs it, renames it, and syncs the folder. So a file of this name never has fewer
 * octets. The file keeps the lock that it gets first. Returns -1 if another process was faster. */
static int make(const char *path)
{
    static uint8_t erased[2 * PN_SECTOR_SIZE];
    char made[PATH_MAX];
    struct stat there;
    int fd;
    if (snprintf(made, sizeof made, "%s.new", path) >= (int)sizeof made)
        fail(STATUS_CREATE, "the name of the flash file is too long");
    fd = open(made, O_RDWR | O_CREAT | O_NOFOLLOW | O_NONBLOCK | O_CLOEXEC, 0600);
    if (fd < 0)
        not_made(path, NULL);
    lock(fd, path);
    /* Only the holder of the lock of the file with this name may rename it. */
    if (!is_named(fd, made)) {
        close(fd);
        return -1;
    }
    judge_owner(fd, made, path);
    judge_left(fd, made, path);
    if (lstat(path, &there) == 0) { /* also a link that leads nowhere: it is not replaced */
        unlink(made);
        close(fd);
        return -1;
    }
    memset(erased, 0xFF, sizeof erased);
    if (ftruncate(fd, 0) != 0 || write_at(fd, erased, sizeof erased, 0) != 0 || fsync(fd) != 0)
        not_made(path, made);
    if (rename(made, path) != 0 || sync_folder(path) != 0)
        not_made(path, made);
    return fd;
}

/* Ends the program if a path is a symbolic link to a file that does not exist: the device whose flash is there would be started without its
 * settings. */
static void judge_link(const char *path)
{
    char target[PATH_MAX];
    ssize_t length = readlink(path, target, sizeof target);
    if (length >= 0)
        fail(STATUS_INPUT, "the flash file '%s' is a symbolic link to '%.*s', which does not exist: make its folder available (is a volume not mounted yet?) and start again, or remove the link to start with a new file",
             path, (int)length, target);
}

/* Opens an existing file. */
static int open_old(const char *path)
{
    int fd = open(path, O_RDWR | O_CLOEXEC), why = errno;
    if (fd < 0 && why == ENOENT)
        judge_link(path);
    errno = why;
    if (fd < 0 && errno != ENOENT)
        fail(STATUS_INPUT, "the flash file '%s' cannot be opened to be read and written: %s", path, strerror(errno));
    if (fd >= 0)
        lock(fd, path);
    return fd;
}

static void keep_apart(const struct stat *found, const char *path)
{
    if (streams_lead_to(found))
        fail(STATUS_USAGE, "the flash file '%s' is a standard stream of this program too, whose lines would be written into it", path);
}

void chip_keep_apart(const char *path)
{
    struct stat found;
    if (stat(path, &found) == 0)
        keep_apart(&found, path);
}

static void judge(const struct chip *chip)
{
    struct stat found;
    if (fstat(chip->fd, &found) != 0)
        fail(STATUS_INPUT, "the flash file '%s': %s", chip->path, strerror(errno));
    keep_apart(&found, chip->path); /* a new file may have been a stream under its other name */
    if (!S_ISREG(found.st_mode) && !S_ISBLK(found.st_mode))
        fail(STATUS_DATA, "'%s' is not a file: name a file with --flash", chip->path);
    if (S_ISREG(found.st_mode) && found.st_size != CHIP_SIZE)
        fail(STATUS_DATA, "'%s' is not a flash file: it has %lld octets, and a flash file has %lld. It was not changed: name another file, or move it away to start with a new one",
             chip->path, (long long)found.st_size, (long long)CHIP_SIZE);
    if (!is_named(chip->fd, chip->path))
        fail(STATUS_IN_USE, "the flash file '%s' was replaced while it was opened: start again", chip->path);
}

void chip_open(struct chip *chip, const char *path)
{
    memset(chip, 0, sizeof *chip);
    chip->path = path;
    chip->fd = open_old(path);
    if (chip->fd < 0) {
        chip->fd = make(path);
        chip->is_new = chip->fd >= 0;
    }
    if (chip->fd < 0)
        chip->fd = open_old(path);
    if (chip->fd < 0)
        fail(STATUS_IN_USE, "the flash file '%s' appears and disappears: another process is making it", path);
    judge(chip);
}

/* Whether the file still is as this process opened it: it has a name, the name is this one, and its length is right. */
static int is_there(struct chip *chip)
{
    struct stat found;
    chip->why = NULL;
    if (fstat(chip->fd, &found) != 0)
        chip->why = strerror(errno);
    else if (found.st_nlink == 0)
        chip->why = "it was removed";
    else if (S_ISREG(found.st_mode) && found.st_size != CHIP_SIZE)
        chip->why = "its length changed";
    else if (!is_named(chip->fd, chip->path))
        chip->why = "its name is gone, or names another file";
    return chip->why == NULL;
}

/* Whether the file exists, and holds what this process wrote. */
static int is_ours(struct chip *chip)
{
    static uint8_t found[PN_SECTOR_SIZE];
    if (!is_there(chip))
        return 0;
    for (unsigned i = 0; i < 2; i++) {
        if (read_at(chip->fd, found, sizeof found, (off_t)i * PN_SECTOR_SIZE) != 0)
            chip->why = "it cannot be read";
        else if (memcmp(found, chip->sectors[i], sizeof found) != 0)
            chip->why = "something else was written into it";
        if (chip->why != NULL)
            return 0;
    }
    return 1;
}

/* Writes octets of a sector to their place, durably. */
static int store(struct chip *chip, uint32_t sector, uint32_t place, uint32_t length)
{
    if (write_durably(chip->fd, chip->sectors[sector] + place, length, (off_t)sector * PN_SECTOR_SIZE + place) == 0)
        return 0;
    chip->why = why_not(errno);
    return 1;
}

int chip_settle(struct chip *chip)
{
    if (!is_there(chip))
        return 1;
    for (uint32_t i = 0; i < 2; i++) {
        if (read_at(chip->fd, chip->sectors[i], PN_SECTOR_SIZE, (off_t)i * PN_SECTOR_SIZE) != 0) {
            chip->why = strerror(errno);
            return 1;
        }
        if (store(chip, i, 0, PN_SECTOR_SIZE) != 0)
            return 1;
    }
    return !is_ours(chip);
}

/* Opens the file of this name in place of the one that was opened. */
static int open_again(struct chip *chip)
{
    int fd = open(chip->path, O_RDWR | O_CLOEXEC);
    if (fd < 0) {
        chip->why = errno == ENOENT ? "its name is gone" : strerror(errno);
        return 1;
    }
    if (flock(fd, LOCK_EX | LOCK_NB) != 0) {
        chip->why = "another process uses it";
        close(fd);
        return 1;
    }
    close(chip->fd);
    chip->fd = fd;
    return 0;
}

int chip_return(struct chip *chip)
{
    return (!is_named(chip->fd, chip->path) && open_again(chip) != 0) || chip_settle(chip) != 0;
}

/* A call failed: the contents in memory may differ from the file. */
static int failed(struct chip *chip)
{
    chip->faults++;
    return 1;
}

/* Writes the new contents of a sector. Checks the file again after the write: if it was removed or replaced in between, the next start
 * would not find them. */
static int carry(struct chip *chip, uint32_t sector, uint32_t place, uint32_t length)
{
    return store(chip, sector, place, length) == 0 && is_ours(chip) ? 0 : failed(chip);
}

int chip_program(struct chip *chip, uint32_t sector, uint32_t place, const uint8_t *octets, uint32_t length)
{
    if (sector > 1 || place > PN_SECTOR_SIZE || length > PN_SECTOR_SIZE - place)
        return 1;
    chip->programs++;
    if (!is_ours(chip))
        return failed(chip);
    for (uint32_t i = 0; i < length; i++)
        chip->sectors[sector][place + i] &= octets[i];
    return carry(chip, sector, place, length);
}

int chip_erase(struct chip *chip, uint32_t sector)
{
    if (sector > 1)
        return 1;
    chip->erases++;
    if (!is_ours(chip))
        return failed(chip);
    memset(chip->sectors[sector], 0xFF, PN_SECTOR_SIZE);
    return carry(chip, sector, 0, PN_SECTOR_SIZE);
}
