#define _GNU_SOURCE
#include "streams.h"
#include "say.h"
#include <errno.h>
#include <fcntl.h>
#include <signal.h>
#include <string.h>
#include <unistd.h>

static int open_null(void)
{
    return open("/dev/null", O_RDWR | O_NOCTTY);
}

void streams_secure(void)
{
    /* A write beyond the greatest length of a file (RLIMIT_FSIZE) fails with EFBIG, and does not kill the program without a word. */
    signal(SIGXFSZ, SIG_IGN);
    /* A new descriptor is the lowest free one, and those below are open by then. */
    for (int fd = STDIN_FILENO; fd <= STDERR_FILENO; fd++)
        if (fcntl(fd, F_GETFD) < 0 && open_null() != fd)
            fail(STATUS_SYSTEM, "stream %d is closed, and /dev/null cannot be opened for it: %s", fd, strerror(errno));
}

/* Without /dev/null it is closed: then a message is lost, and the next opened file may get its number; the program ends anyway. */
static void silence(void)
{
    int fd = open_null();
    if (fd < 0 || dup2(fd, STDERR_FILENO) < 0)
        close(STDERR_FILENO);
    if (fd >= 0)
        close(fd);
}

int streams_lead_to(const struct stat *file)
{
    struct stat stream;
    int is_one = 0;
    for (int fd = STDIN_FILENO; fd <= STDERR_FILENO; fd++) {
        if (fstat(fd, &stream) != 0 || stream.st_dev != file->st_dev || stream.st_ino != file->st_ino)
            continue;
        is_one = 1;
        if (fd == STDERR_FILENO)
            silence();
    }
    return is_one;
}
