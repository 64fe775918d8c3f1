#define _GNU_SOURCE
#include "ticker.h"
#include "nandutable.h"
#include "say.h"
#include <errno.h>
#include <string.h>
#include <sys/timerfd.h>
#include <time.h>
#include <unistd.h>

#define TOLD_EACH (10 * SECOND)

uint64_t ticker_now(void)
{
    struct timespec time;
    clock_gettime(CLOCK_MONOTONIC, &time);
    return (uint64_t)time.tv_sec * SECOND + (uint64_t)time.tv_nsec;
}

void ticker_open(struct ticker *ticker)
{
    memset(ticker, 0, sizeof *ticker);
    ticker->fd = timerfd_create(CLOCK_MONOTONIC, TFD_NONBLOCK | TFD_CLOEXEC);
    if (ticker->fd < 0)
        fail(STATUS_SYSTEM, "the system refuses a timer: %s", strerror(errno));
    ticker->started = ticker_now();
}

void ticker_pace(struct ticker *ticker, uint64_t period)
{
    uint64_t first = ticker_now() + period;
    struct itimerspec times = {
        .it_value = {(time_t)(first / SECOND), (long)(first % SECOND)},
        .it_interval = {(time_t)(period / SECOND), (long)(period % SECOND)},
    };
    if (ticker->period == period)
        return;
    if (timerfd_settime(ticker->fd, TFD_TIMER_ABSTIME, &times, NULL) != 0)
        fail(STATUS_SYSTEM, "the timer is refused: %s", strerror(errno));
    ticker->period = period;
}

void ticker_arm(struct ticker *ticker, uint64_t units)
{
    uint64_t armed = ticker->given + units, at = ticker->started + armed * PN_UNIT_NS;
    struct itimerspec times = {.it_value = {(time_t)(at / SECOND), (long)(at % SECOND)}};
    if (ticker->armed == armed)
        return;
    if (timerfd_settime(ticker->fd, TFD_TIMER_ABSTIME, &times, NULL) != 0)
        fail(STATUS_SYSTEM, "the timer is refused: %s", strerror(errno));
    ticker->armed = armed;
}

void ticker_wait_again(struct ticker *ticker)
{
    uint64_t times;
    ticker->armed = 0;
    if (ticker->period == 0)
        return; /* it is armed again before the next wait, which clears it */
    /* The number that it returns is not needed: the clock is more exact. */
    if (read(ticker->fd, &times, sizeof times) < 0 && errno != EAGAIN && errno != EINTR)
        fail(STATUS_SYSTEM, "the timer cannot be read: %s", strerror(errno));
}

uint64_t ticker_over(const struct ticker *ticker)
{
    return (ticker_now() - ticker->started) / PN_UNIT_NS - ticker->given;
}

uint32_t ticker_due_before(struct ticker *ticker, uint64_t most)
{
    uint64_t due = ticker_over(ticker);
    if (due > most)
        due = most;
    ticker->given += due;
    return (uint32_t)due;
}

uint32_t ticker_due(struct ticker *ticker, uint64_t most)
{
    uint64_t due = ticker_over(ticker);
    ticker->given += due;
    if (due > ticker->longest)
        ticker->longest = due;
    if (due > most) {
        ticker->stalls++;
        ticker->forgotten += due - most;
        due = most;
    }
    return (uint32_t)due;
}

int ticker_tells(struct ticker *ticker)
{
    uint64_t now = ticker_now();
    if (ticker->stalls == ticker->told || (ticker->told_at != 0 && now - ticker->told_at < TOLD_EACH))
        return 0;
    ticker->told = ticker->stalls;
    ticker->told_at = now;
    return 1;
}
