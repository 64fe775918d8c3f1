/* tap IFACE FILE: writes each frame of an interface, in and out, to a capture file for Wireshark, with the kernel's times in nanoseconds,
 * until SIGTERM. It opens the file before the interface, and prints `ready` once it receives. */
#define _GNU_SOURCE
#include <arpa/inet.h>
#include <errno.h>
#include <linux/if_ether.h>
#include <linux/if_packet.h>
#include <net/if.h>
#include <signal.h>
#include <stdint.h>
#include <stdio.h>
#include <stdlib.h>
#include <string.h>
#include <sys/socket.h>
#include <sys/uio.h>
#include <time.h>
#include <unistd.h>

static volatile sig_atomic_t is_ended;

static void end(int number)
{
    (void)number;
    is_ended = 1;
}

static void stop(const char *what)
{
    fprintf(stderr, "tap: %s: %s\n", what, strerror(errno));
    exit(1);
}

static int open_interface(const char *name)
{
    struct sockaddr_ll address = {.sll_family = AF_PACKET, .sll_protocol = htons(ETH_P_ALL), .sll_ifindex = (int)if_nametoindex(name)};
    struct timeval second = {.tv_sec = 0, .tv_usec = 100000};
    const int yes = 1, room = 8 << 20;
    int fd = socket(AF_PACKET, SOCK_RAW | SOCK_CLOEXEC, 0);
    if (fd < 0 || address.sll_ifindex == 0)
        stop(name);
    setsockopt(fd, SOL_SOCKET, SO_RCVBUFFORCE, &room, sizeof room);
    if (setsockopt(fd, SOL_SOCKET, SO_TIMESTAMPNS, &yes, sizeof yes) != 0 || setsockopt(fd, SOL_PACKET, PACKET_AUXDATA, &yes, sizeof yes) != 0 ||
        setsockopt(fd, SOL_SOCKET, SO_RCVTIMEO, &second, sizeof second) != 0 || bind(fd, (struct sockaddr *)&address, sizeof address) != 0)
        stop(name);
    return fd;
}

/* Writes numbers of four octets of the capture file, in this machine's byte order. */
static void put(FILE *file, const uint32_t *words, size_t count)
{
    if (fwrite(words, sizeof *words, count, file) != count)
        stop("the capture");
}

/* Writes a frame, with its tag put back. */
static void write_frame(FILE *file, struct msghdr *message, uint8_t *octets, size_t length)
{
    struct timespec time = {0};
    for (struct cmsghdr *entry = CMSG_FIRSTHDR(message); entry != NULL; entry = CMSG_NXTHDR(message, entry)) {
        struct tpacket_auxdata aux;
        if (entry->cmsg_level == SOL_SOCKET && entry->cmsg_type == SO_TIMESTAMPNS)
            memcpy(&time, CMSG_DATA(entry), sizeof time);
        if (entry->cmsg_level != SOL_PACKET || entry->cmsg_type != PACKET_AUXDATA)
            continue;
        memcpy(&aux, CMSG_DATA(entry), sizeof aux);
        if ((aux.tp_status & TP_STATUS_VLAN_VALID) == 0)
            continue;
        memmove(octets + 16, octets + 12, length - 12);
        octets[12] = 0x81;
        octets[13] = 0x00;
        octets[14] = (uint8_t)(aux.tp_vlan_tci >> 8);
        octets[15] = (uint8_t)aux.tp_vlan_tci;
        length += 4;
    }
    put(file, (uint32_t[]){(uint32_t)time.tv_sec, (uint32_t)time.tv_nsec, (uint32_t)length, (uint32_t)length}, 4);
    if (fwrite(octets, 1, length, file) != length)
        stop("the capture");
}

int main(int count, char *words[])
{
    static uint8_t octets[65536 + 4], beside[256];
    struct sigaction action = {.sa_handler = end};
    FILE *file;
    int fd;
    if (count != 3) {
        fprintf(stderr, "tap IFACE FILE\n");
        return 64;
    }
    if ((file = fopen(words[2], "wb")) == NULL)
        stop(words[2]);
    sigaction(SIGTERM, &action, NULL);
    sigaction(SIGINT, &action, NULL);
    fd = open_interface(words[1]);
    /* The magic number of times in nanoseconds, version 2.4, the longest frame, Ethernet. */
    put(file, (uint32_t[]){0xA1B23C4D, 0x00040002, 0, 0, 65540, 1}, 6);
    fflush(file);
    puts("ready");
    fflush(stdout);
    for (;;) {
        struct iovec part = {octets, sizeof octets - 4};
        struct msghdr message = {.msg_iov = &part, .msg_iovlen = 1, .msg_control = beside, .msg_controllen = sizeof beside};
        /* What came before the end is written, also if this program is late. */
        int flags = is_ended ? MSG_DONTWAIT : 0;
        ssize_t got = recvmsg(fd, &message, flags);
        if (got >= 14)
            write_frame(file, &message, octets, (size_t)got);
        else if (flags != 0)
            break;
    }
    return fclose(file) == 0 ? 0 : 1;
}
