#define _GNU_SOURCE
#include "wake.h"
#include "say.h"
#include <errno.h>
#include <sched.h>
#include <signal.h>
#include <string.h>
#include <sys/mman.h>
#include <sys/signalfd.h>
#include <unistd.h>

void wake_open(struct wake *wake)
{
    sigset_t heard;
    memset(wake, 0, sizeof *wake);
    sigemptyset(&heard);
    sigaddset(&heard, SIGTERM);
    sigaddset(&heard, SIGINT);
    sigaddset(&heard, SIGHUP);
    sigaddset(&heard, SIGUSR1);
    sigprocmask(SIG_BLOCK, &heard, NULL);
    signal(SIGPIPE, SIG_IGN);
    signal(SIGTTIN, SIG_IGN); /* in the background of a terminal: reading fails, and no line arrives */
    signal(SIGTTOU, SIG_IGN); /* writing does not stop the program */
    wake->signals = signalfd(-1, &heard, SFD_NONBLOCK | SFD_CLOEXEC);
    if (wake->signals < 0)
        fail(STATUS_SYSTEM, "the system refuses signals: %s", strerror(errno));
}

static void take_signals(struct wake *wake)
{
    struct signalfd_siginfo told;
    while (read(wake->signals, &told, sizeof told) == (ssize_t)sizeof told) {
        if (told.ssi_signo == SIGUSR1)
            wake->is_asked = 1;
        else
            wake->is_ended = 1;
    }
}

void wake_wait(struct wake *wake, struct wire *wire, struct ticker *ticker, struct lines *lines)
{
    struct pollfd polls[3 + LINES_POLLS] = {
        {.fd = wire->fd, .events = POLLIN},
        {.fd = ticker->fd, .events = POLLIN},
        {.fd = wake->signals, .events = POLLIN},
    };
    nfds_t count = 3 + lines_polls(lines, polls + 3);
    if (poll(polls, count, -1) < 0) {
        if (errno != EINTR)
            fail(STATUS_SYSTEM, "waiting is refused: %s", strerror(errno));
        return;
    }
    wake->has_frames = polls[0].revents != 0;
    if (polls[1].revents != 0)
        ticker_wait_again(ticker);
    if (polls[2].revents != 0)
        take_signals(wake);
    for (nfds_t i = 3; i < count; i++)
        wake->has_lines |= polls[i].revents != 0;
}

void wake_realtime(int priority)
{
    struct sched_param wanted = {.sched_priority = priority};
    if (sched_setscheduler(0, SCHED_FIFO, &wanted) != 0)
        fail(STATUS_PERMISSION, "--realtime is refused: %s (it needs the capability CAP_SYS_NICE, or a limit by `ulimit -r`)", strerror(errno));
    if (mlockall(MCL_CURRENT | MCL_FUTURE) != 0)
        say("the memory is not locked, so a swapped-out page delays frames: %s (`ulimit -l`)", strerror(errno));
}
