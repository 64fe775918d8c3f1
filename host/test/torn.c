/* Preloaded into a device (LD_PRELOAD), this cuts the power inside a flash call, or records the calls to the system. Six environment
 * variables:
 *
 *   TORN=K:SEED   the K-th write (from 0, including those of the start) reaches the disk in part, each bit by the seed, and the process
 *                 is killed in it
 *   FULL=K:N      N writes from the K-th on find the disk full (N 0: all of them): the first half of each is written
 *   GONE=K:N      the file is removed when the K-th write begins (N is 1)
 *   NO_NULL=1     /dev/null does not exist
 *   FAILS=K:N     N syncs from the K-th on report that the disk failed (N 0: all of them)
 *   ORDER=FILE    writes a line for each write, sync, rename and frame, in their order */
#define _GNU_SOURCE
#include <dlfcn.h>
#include <errno.h>
#include <fcntl.h>
#include <signal.h>
#include <stdarg.h>
#include <stdint.h>
#include <stdio.h>
#include <stdlib.h>
#include <string.h>
#include <sys/socket.h>
#include <sys/stat.h>
#include <sys/types.h>
#include <unistd.h>

static unsigned long writes, syncs;

/* The system's own function with this name. */
static uintptr_t next(const char *name)
{
    return (uintptr_t)dlsym(RTLD_NEXT, name);
}

static void tell(const char *format, ...) __attribute__((format(printf, 1, 2)));

static void tell(const char *format, ...)
{
    static int fd = -2;
    va_list values;
    if (fd == -2) {
        const char *path = getenv("ORDER");
        fd = path == NULL ? -1 : open(path, O_WRONLY | O_CREAT | O_APPEND | O_CLOEXEC, 0600);
    }
    if (fd < 0)
        return;
    va_start(values, format);
    vdprintf(fd, format, values);
    va_end(values);
}

static int read_pair(const char *name, unsigned long *first, unsigned long *second)
{
    const char *word = getenv(name);
    return word != NULL && sscanf(word, "%lu:%lu", first, second) == 2;
}

static uint8_t drawn(uint64_t *seed)
{
    *seed = *seed * 6364136223846793005u + 1442695040888963407u;
    return (uint8_t)(*seed >> 56);
}

/* Writes some of the bits; for some seeds all bits before a place, or all after it. */
static void tear(int fd, const uint8_t *octets, size_t length, off_t place, uint64_t seed)
{
    uint8_t torn[8192];
    size_t whole, kind = drawn(&seed) % 3;
    if (length > sizeof torn || pread(fd, torn, length, place) != (ssize_t)length)
        abort();
    whole = length == 0 ? 0 : (size_t)((drawn(&seed) * 256u + drawn(&seed)) % length);
    for (size_t i = 0; i < length; i++) {
        uint8_t mask = kind == 0 ? drawn(&seed) : (i < whole) == (kind == 1) ? 0xFF : 0;
        torn[i] = (uint8_t)((torn[i] & ~mask) | (octets[i] & mask));
    }
    if (((ssize_t(*)(int, const void *, size_t, off_t))next("pwrite"))(fd, torn, length, place) != (ssize_t)length)
        abort();
}

/* Whether this call must fail. */
static int is_struck(const char *name, unsigned long *passed)
{
    unsigned long at, count, now;
    if (!read_pair(name, &at, &count))
        return 0;
    now = (*passed)++;
    return now >= at && (count == 0 || now < at + count);
}

/* Removes the file of a descriptor. */
static void remove_file(int fd)
{
    char descriptor[32], path[4096];
    ssize_t length;
    snprintf(descriptor, sizeof descriptor, "/proc/self/fd/%d", fd);
    length = readlink(descriptor, path, sizeof path - 1);
    if (length < 0)
        abort();
    path[length] = '\0';
    if (unlink(path) != 0)
        abort();
}

ssize_t pwrite(int fd, const void *octets, size_t length, off_t place)
{
    static unsigned long filled, left;
    static int is_half; /* half of a write to a full disk is written, and nothing of the rest */
    unsigned long at, seed;
    tell("write %lld %zu\n", (long long)place, length);
    if (read_pair("TORN", &at, &seed) && writes++ == at) {
        tear(fd, octets, length, place, seed);
        kill(getpid(), SIGKILL);
    }
    if (is_struck("GONE", &left))
        remove_file(fd);
    if (is_half || is_struck("FULL", &filled)) {
        is_half = !is_half && length > 1;
        if (!is_half) {
            errno = ENOSPC;
            return -1;
        }
        length /= 2;
    }
    return ((ssize_t(*)(int, const void *, size_t, off_t))next("pwrite"))(fd, octets, length, place);
}

ssize_t pwrite64(int fd, const void *octets, size_t length, off_t place)
{
    return pwrite(fd, octets, length, place);
}

int open(const char *path, int flags, ...)
{
    va_list values;
    int mode;
    if (strcmp(path, "/dev/null") == 0 && getenv("NO_NULL") != NULL) {
        errno = ENOENT;
        return -1;
    }
    va_start(values, flags);
    mode = (flags & O_CREAT) != 0 ? va_arg(values, int) : 0;
    va_end(values);
    return ((int (*)(const char *, int, ...))next("open"))(path, flags, mode);
}

int fdatasync(int fd)
{
    tell("sync\n");
    if (is_struck("FAILS", &syncs)) {
        errno = EIO;
        return -1;
    }
    return ((int (*)(int))next("fdatasync"))(fd);
}

int fsync(int fd)
{
    struct stat found;
    tell("sync %s\n", fstat(fd, &found) == 0 && S_ISDIR(found.st_mode) ? "of the folder" : "of the new file");
    return ((int (*)(int))next("fsync"))(fd);
}

int rename(const char *from, const char *to)
{
    tell("new name\n");
    return ((int (*)(const char *, const char *))next("rename"))(from, to);
}

ssize_t send(int fd, const void *octets, size_t length, int flags)
{
    const uint8_t *frame = octets;
    if (length >= 16)
        tell("frame %02x%02x %02x%02x\n", frame[12], frame[13], frame[14], frame[15]);
    return ((ssize_t(*)(int, const void *, size_t, int))next("send"))(fd, octets, length, flags);
}
