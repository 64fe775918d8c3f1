/* stub IFACE PERIOD_US SECONDS [first|second]: exchanges cyclic frames of forty octets with another stub, as a device in a relation does,
 * and nothing else: it sends one each period and takes those that come. It shows what the system's timer and socket cost alone. It waits for
 * as many descriptors as a program with one reader of its lines, and arms its timer, receives and sends by the same calls. */
#define _GNU_SOURCE
#include <arpa/inet.h>
#include <linux/if_ether.h>
#include <linux/if_packet.h>
#include <net/if.h>
#include <poll.h>
#include <signal.h>
#include <stdint.h>
#include <stdio.h>
#include <stdlib.h>
#include <string.h>
#include <sys/signalfd.h>
#include <sys/socket.h>
#include <sys/timerfd.h>
#include <time.h>
#include <unistd.h>

#define SECOND 1000000000ull
#define UNIT 31250u

static uint8_t frame[64] = {0x02, 0, 0, 0, 0, 0x12, 0x02, 0, 0, 0, 0, 0x11, 0x81, 0x00, 0xC0, 0x00, 0x88, 0x92, 0xC0, 0x01};

static uint64_t now(void)
{
    struct timespec time;
    clock_gettime(CLOCK_MONOTONIC, &time);
    return (uint64_t)time.tv_sec * SECOND + (uint64_t)time.tv_nsec;
}

static void arm(int timer, uint64_t at)
{
    struct itimerspec times = {.it_value = {(time_t)(at / SECOND), (long)(at % SECOND)}};
    timerfd_settime(timer, TFD_TIMER_ABSTIME, &times, NULL);
}

static int receive(int fd)
{
    static uint8_t octets[2048];
    uint8_t beside[CMSG_SPACE(sizeof(struct tpacket_auxdata))];
    struct sockaddr_ll from;
    struct iovec part = {octets, sizeof octets};
    struct msghdr message = {.msg_name = &from, .msg_namelen = sizeof from, .msg_iov = &part, .msg_iovlen = 1, .msg_control = beside,
                             .msg_controllen = sizeof beside};
    return recvmsg(fd, &message, 0) > 0;
}

static int transmit(int fd, uint64_t sent, uint64_t period)
{
    uint16_t counter = (uint16_t)(sent * (period / UNIT));
    frame[60] = (uint8_t)(counter >> 8);
    frame[61] = (uint8_t)counter;
    frame[62] = 0x35;
    return send(fd, frame, sizeof frame, MSG_DONTWAIT) == (ssize_t)sizeof frame;
}

int main(int count, char *words[])
{
    const int yes = 1;
    struct sockaddr_ll address = {.sll_family = AF_PACKET, .sll_protocol = htons(ETH_P_ALL)};
    int fd = socket(AF_PACKET, SOCK_RAW | SOCK_NONBLOCK, 0), timer = timerfd_create(CLOCK_MONOTONIC, TFD_NONBLOCK);
    int signals, lines[2][2];
    sigset_t heard;
    uint64_t period, begins, sent = 0, end, wakes = 0, armed = 0;
    if (count != 5 || fd < 0 || timer < 0)
        return 64;
    if (strcmp(words[4], "second") == 0) {
        frame[5] = 0x11;
        frame[11] = 0x12;
        frame[18] = 0xC0;
    }
    sigemptyset(&heard);
    sigaddset(&heard, SIGUSR1);
    sigprocmask(SIG_BLOCK, &heard, NULL);
    signals = signalfd(-1, &heard, SFD_NONBLOCK);
    if (signals < 0 || pipe(lines[0]) != 0 || pipe(lines[1]) != 0)
        return 1;
    setsockopt(fd, SOL_PACKET, PACKET_AUXDATA, &yes, sizeof yes);
    setsockopt(fd, SOL_PACKET, PACKET_IGNORE_OUTGOING, &yes, sizeof yes);
    address.sll_ifindex = (int)if_nametoindex(words[1]);
    period = strtoull(words[2], NULL, 10) * 1000;
    if (bind(fd, (struct sockaddr *)&address, sizeof address) != 0)
        return 1;
    begins = now();
    end = begins + strtoull(words[3], NULL, 10) * SECOND;
    while (now() < end) {
        struct pollfd polls[5] = {{.fd = fd, .events = POLLIN}, {.fd = timer, .events = POLLIN}, {.fd = signals, .events = POLLIN},
                                  {.fd = lines[0][0], .events = POLLIN}, {.fd = lines[1][0], .events = POLLIN}};
        uint64_t next = begins + (sent + 1) * period;
        if (next != armed)
            arm(timer, next);
        armed = next;
        poll(polls, 5, -1);
        wakes++;
        while (receive(fd))
            continue;
        while (begins + (sent + 1) * period <= now())
            if (!transmit(fd, ++sent, period))
                return 1;
    }
    printf("wakes %llu\n", (unsigned long long)wakes);
    return 0;
}
