#define _GNU_SOURCE
#include "wire.h"
#include "say.h"
#include "ticker.h"
#include <arpa/inet.h>
#include <errno.h>
#include <ifaddrs.h>
#include <linux/ethtool.h>
#include <linux/filter.h>
#include <linux/if_ether.h>
#include <linux/if_packet.h>
#include <linux/sockios.h>
#include <netinet/in.h>
#include <poll.h>
#include <stdio.h>
#include <string.h>
#include <sys/ioctl.h>
#include <sys/socket.h>
#include <sys/uio.h>

/* EtherTypes, and the port of calls. */
#define TYPE_PROFINET 0x8892u
#define TYPE_LLDP 0x88CCu
#define TYPE_TAG 0x8100u
#define PORT_CALLS 34964u

/* The type of an echo request of ICMP. */
#define ECHO_REQUEST 8u

/* Room for frames that arrive while the program waits for its flash. */
#define RECEIVE_ROOM (1 << 20)

#ifndef PACKET_IGNORE_OUTGOING
#define PACKET_IGNORE_OUTGOING 23
#endif

/* The frames that a station accepts, so that other traffic of the interface does not wake the program. The kernel has removed a tag here.
 * The two numbers at the end of a jump are how many lines it skips if the test is true, and if it is false. */
static struct sock_filter wanted[] = {
    BPF_STMT(BPF_LD | BPF_H | BPF_ABS, 12),
    BPF_JUMP(BPF_JMP | BPF_JEQ | BPF_K, TYPE_PROFINET, 14, 0),
    BPF_JUMP(BPF_JMP | BPF_JEQ | BPF_K, TYPE_LLDP, 13, 0),
    BPF_JUMP(BPF_JMP | BPF_JEQ | BPF_K, ETH_P_ARP, 12, 0),
    BPF_JUMP(BPF_JMP | BPF_JEQ | BPF_K, ETH_P_IP, 0, 12),
    BPF_STMT(BPF_LD | BPF_B | BPF_ABS, 23),
    BPF_JUMP(BPF_JMP | BPF_JEQ | BPF_K, IPPROTO_ICMP, 6, 0),
    BPF_JUMP(BPF_JMP | BPF_JEQ | BPF_K, IPPROTO_UDP, 0, 9),
    BPF_STMT(BPF_LD | BPF_H | BPF_ABS, 20),
    BPF_JUMP(BPF_JMP | BPF_JSET | BPF_K, 0x1FFF, 7, 0),
    BPF_STMT(BPF_LDX | BPF_B | BPF_MSH, 14),
    BPF_STMT(BPF_LD | BPF_H | BPF_IND, 16),
    BPF_JUMP(BPF_JMP | BPF_JEQ | BPF_K, PORT_CALLS, 3, 4),
    BPF_STMT(BPF_LDX | BPF_B | BPF_MSH, 14),
    BPF_STMT(BPF_LD | BPF_B | BPF_IND, 14),
    BPF_JUMP(BPF_JMP | BPF_JEQ | BPF_K, ECHO_REQUEST, 0, 1),
    BPF_STMT(BPF_RET | BPF_K, 0xFFFF),
    BPF_STMT(BPF_RET | BPF_K, 0),
};

static void set(const struct wire *wire, int level, int option, const void *value, socklen_t size, const char *what)
{
    if (setsockopt(wire->fd, level, option, value, size) != 0)
        fail(STATUS_SYSTEM, "%s: %s is refused: %s", wire->name, what, strerror(errno));
}

/* Asks the kernel about the interface. */
static int ask(const struct wire *wire, unsigned long what, struct ifreq *request)
{
    memset(request, 0, sizeof *request);
    memcpy(request->ifr_name, wire->name, sizeof request->ifr_name);
    return ioctl(wire->fd, what, request);
}

static void identify_interface(struct wire *wire)
{
    struct ifreq request;
    wire->index = (int)if_nametoindex(wire->name);
    if (wire->index == 0)
        fail(STATUS_NO_INPUT, "there is no interface '%s' (`ip link` lists the interfaces)", wire->name);
    if (ask(wire, SIOCGIFHWADDR, &request) != 0 || request.ifr_hwaddr.sa_family != 1 /* ARPHRD_ETHER */)
        fail(STATUS_NO_INPUT, "%s is not an Ethernet interface", wire->name);
    memcpy(wire->hardware, request.ifr_hwaddr.sa_data, sizeof wire->hardware);
}

static void bind_to(struct wire *wire)
{
    struct sockaddr_ll address = {.sll_family = AF_PACKET, .sll_protocol = htons(ETH_P_ALL), .sll_ifindex = wire->index};
    if (bind(wire->fd, (struct sockaddr *)&address, sizeof address) != 0)
        fail(STATUS_SYSTEM, "%s: the socket is not bound: %s", wire->name, strerror(errno));
}

void wire_open(struct wire *wire, const char *interface)
{
    const int yes = 1, room = RECEIVE_ROOM, priority = 6;
    struct sock_fprog filter = {sizeof wanted / sizeof wanted[0], wanted};
    memset(wire, 0, sizeof *wire);
    if (strlen(interface) >= sizeof wire->name)
        fail(STATUS_NO_INPUT, "there is no interface '%s': a name has at most %d letters", interface, IFNAMSIZ - 1);
    strcpy(wire->name, interface);
    /* Without a protocol yet: frames arrive only after the filter is set. */
    wire->fd = socket(AF_PACKET, SOCK_RAW | SOCK_NONBLOCK | SOCK_CLOEXEC, 0);
    if (wire->fd < 0 && errno == EPERM)
        fail(STATUS_PERMISSION, "the capability CAP_NET_RAW is missing: run it as root, or run `setcap cap_net_raw+ep` on the program once");
    if (wire->fd < 0)
        fail(STATUS_SYSTEM, "the system refuses a packet socket: %s", strerror(errno));
    identify_interface(wire);
    set(wire, SOL_SOCKET, SO_ATTACH_FILTER, &filter, sizeof filter, "the filter");
    set(wire, SOL_PACKET, PACKET_AUXDATA, &yes, sizeof yes, "data about tags");
    /* Older kernels do not have this option; wire_receive skips such frames too. */
    setsockopt(wire->fd, SOL_PACKET, PACKET_IGNORE_OUTGOING, &yes, sizeof yes);
    setsockopt(wire->fd, SOL_SOCKET, SO_RCVBUF, &room, sizeof room);
    setsockopt(wire->fd, SOL_SOCKET, SO_PRIORITY, &priority, sizeof priority);
    bind_to(wire);
    wire_look(wire);
}

static void join(struct wire *wire, unsigned short type, const uint8_t address[6], const char *what)
{
    struct packet_mreq request = {.mr_ifindex = wire->index, .mr_type = type, .mr_alen = 6};
    memcpy(request.mr_address, address, 6);
    set(wire, SOL_PACKET, PACKET_ADD_MEMBERSHIP, &request, sizeof request, what);
}

void wire_take(struct wire *wire, const uint8_t mac[6])
{
    if (memcmp(mac, wire->hardware, 6) != 0)
        join(wire, PACKET_MR_UNICAST, mac, "another MAC address");
}

void wire_join_identify(struct wire *wire)
{
    static const uint8_t group[6] = {0x01, 0x0E, 0xCF, 0, 0, 0};
    join(wire, PACKET_MR_MULTICAST, group, "the group 01-0E-CF-00-00-00");
}

void wire_join_nearest(struct wire *wire)
{
    static const uint8_t group[6] = {0x01, 0x80, 0xC2, 0, 0, 0x0E};
    join(wire, PACKET_MR_MULTICAST, group, "the group 01-80-C2-00-00-0E");
}

/* The kernel's data about a frame, or NULL. */
static const struct tpacket_auxdata *told(struct msghdr *message)
{
    for (struct cmsghdr *entry = CMSG_FIRSTHDR(message); entry != NULL; entry = CMSG_NXTHDR(message, entry))
        if (entry->cmsg_level == SOL_PACKET && entry->cmsg_type == PACKET_AUXDATA)
            return (const struct tpacket_auxdata *)(const void *)CMSG_DATA(entry);
    return NULL;
}

/* Puts a tag back after both addresses. */
static void put_tag(uint8_t *octets, size_t *length, const struct tpacket_auxdata *aux)
{
    unsigned type = (aux->tp_status & TP_STATUS_VLAN_TPID_VALID) != 0 ? aux->tp_vlan_tpid : TYPE_TAG;
    memmove(octets + 16, octets + 12, *length - 12);
    octets[12] = (uint8_t)(type >> 8);
    octets[13] = (uint8_t)type;
    octets[14] = (uint8_t)(aux->tp_vlan_tci >> 8);
    octets[15] = (uint8_t)aux->tp_vlan_tci;
    *length += 4;
}

/* In a frame from this machine the UDP checksum is not computed yet. This writes 'no checksum' (0), because the kernel vouches for it. */
static void clear_checksum(uint8_t *octets, size_t length)
{
    size_t head = 14 + (size_t)(octets[14] & 15) * 4;
    if (octets[12] == 0x08 && octets[13] == 0x00 && octets[23] == IPPROTO_UDP && head + 8 <= length)
        octets[head + 6] = octets[head + 7] = 0;
}

int wire_receive(struct wire *wire, uint8_t octets[WIRE_FRAME], size_t *length)
{
    union {
        struct cmsghdr head;
        uint8_t room[CMSG_SPACE(sizeof(struct tpacket_auxdata))];
    } beside;
    struct sockaddr_ll from;
    struct iovec part = {octets, WIRE_FRAME - 4};
    for (;;) {
        struct msghdr message = {.msg_name = &from, .msg_namelen = sizeof from, .msg_iov = &part, .msg_iovlen = 1,
                                 .msg_control = &beside, .msg_controllen = sizeof beside};
        const struct tpacket_auxdata *aux;
        ssize_t got = recvmsg(wire->fd, &message, 0);
        if (got < 0)
            return 0; /* no frame waits, or the interface is down, which wire_look reports */
        if (got < 14 || from.sll_pkttype == PACKET_OUTGOING)
            continue;
        *length = (size_t)got;
        aux = told(&message);
        if (aux != NULL && *length >= 34 && (aux->tp_status & TP_STATUS_CSUMNOTREADY) != 0)
            clear_checksum(octets, *length);
        if (aux != NULL && (aux->tp_status & TP_STATUS_VLAN_VALID) != 0)
            put_tag(octets, length, aux);
        wire->received++;
        return 1;
    }
}

int wire_wait(struct wire *wire, uint64_t until, uint8_t octets[WIRE_FRAME], size_t *length)
{
    for (uint64_t now = ticker_now(); now < until; now = ticker_now()) {
        struct pollfd one = {.fd = wire->fd, .events = POLLIN};
        if (wire_receive(wire, octets, length))
            return 1;
        poll(&one, 1, (int)((until - now) / 1000000) + 1);
    }
    return 0;
}

int wire_send(struct wire *wire, const uint8_t *octets, size_t length)
{
    if (send(wire->fd, octets, length, MSG_DONTWAIT) == (ssize_t)length) {
        wire->sent++;
        return 0;
    }
    wire->not_sent++;
    return 1;
}

/* Whether the interface has a carrier; one that cannot report it counts as having one. */
static int has_carrier(const struct wire *wire)
{
    struct ethtool_value link = {.cmd = ETHTOOL_GLINK, .data = 1};
    struct ifreq request;
    memset(&request, 0, sizeof request);
    memcpy(request.ifr_name, wire->name, sizeof request.ifr_name);
    request.ifr_data = (char *)&link;
    return ioctl(wire->fd, SIOCETHTOOL, &request) != 0 || link.data != 0;
}

int wire_look(struct wire *wire)
{
    struct ifreq request;
    int was_up = wire->is_up;
    if (ask(wire, SIOCGIFFLAGS, &request) != 0 || (int)if_nametoindex(wire->name) != wire->index)
        fail(STATUS_NO_INPUT, "the interface '%s' is gone", wire->name);
    wire->is_enabled = (request.ifr_flags & IFF_UP) != 0;
    wire->is_up = wire->is_enabled && has_carrier(wire);
    return wire->is_up - was_up;
}

uint64_t wire_missed(struct wire *wire)
{
    struct tpacket_stats counts;
    socklen_t size = sizeof counts;
    if (getsockopt(wire->fd, SOL_PACKET, PACKET_STATISTICS, &counts, &size) == 0)
        wire->missed += counts.tp_drops; /* the kernel counts from the last query on */
    return wire->missed;
}

const char *wire_why_down(const struct wire *wire, char words[WIRE_WHY])
{
    if (wire->is_enabled)
        snprintf(words, WIRE_WHY, "%s has no carrier: no cable, or the other end is off", wire->name);
    else
        snprintf(words, WIRE_WHY, "`ip link set %s up`", wire->name);
    return words;
}

const char *wire_with_address(const uint8_t address[4])
{
    static char name[IFNAMSIZ];
    struct ifaddrs *all;
    const char *found = NULL;
    if (getifaddrs(&all) != 0)
        return NULL;
    for (const struct ifaddrs *entry = all; entry != NULL && found == NULL; entry = entry->ifa_next) {
        struct sockaddr_in internet;
        if (entry->ifa_addr == NULL || entry->ifa_addr->sa_family != AF_INET)
            continue;
        memcpy(&internet, entry->ifa_addr, sizeof internet);
        if (memcmp(&internet.sin_addr, address, 4) == 0) {
            strncpy(name, entry->ifa_name, sizeof name - 1);
            found = name;
        }
    }
    freeifaddrs(all);
    return found;
}

size_t wire_frame_id_at(const uint8_t *octets, size_t length)
{
    size_t at = length >= 16 && octets[12] == 0x81 && octets[13] == 0x00 ? 18 : 14;
    if (length < at + 2 || octets[at - 2] != TYPE_PROFINET >> 8 || octets[at - 1] != (TYPE_PROFINET & 0xFF))
        return 0;
    return at;
}

unsigned wire_frame_id(const uint8_t *octets, size_t length)
{
    size_t at = wire_frame_id_at(octets, length);
    return at == 0 ? 0 : (unsigned)(octets[at] << 8 | octets[at + 1]);
}

int wire_is_cyclic(const uint8_t *octets, size_t length)
{
    size_t at = wire_frame_id_at(octets, length);
    return at != 0 && octets[at] >= 0x80 && octets[at] < 0xF8;
}

int wire_is_lldp(const uint8_t *octets, size_t length)
{
    size_t at = length >= 18 && octets[12] == 0x81 && octets[13] == 0x00 ? 16 : 12;
    return length >= at + 2 && octets[at] == TYPE_LLDP >> 8 && octets[at + 1] == (TYPE_LLDP & 0xFF);
}

int wire_is_service(const uint8_t *octets, size_t length)
{
    size_t at = length >= 18 && octets[12] == 0x81 && octets[13] == 0x00 ? 16 : 12;
    if (length < at + 12 || octets[at] != 0x08)
        return 0;
    return octets[at + 1] == 0x06 || (octets[at + 1] == 0x00 && octets[at + 11] == IPPROTO_ICMP);
}
