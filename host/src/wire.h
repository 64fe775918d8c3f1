/* A network interface, by a packet socket. */
#ifndef HOST_WIRE_H
#define HOST_WIRE_H

#include <net/if.h>
#include <stddef.h>
#include <stdint.h>

/* Room for a received frame, including a tag that is put back. The library refuses frames longer than 1,518 octets. */
#define WIRE_FRAME 2048

struct wire {
    int fd;
    int index;
    char name[IF_NAMESIZE];
    uint8_t hardware[6]; /* the MAC address of the interface */
    int is_enabled; /* the interface itself: `ip link set .. up` */
    int is_up;      /* with a carrier */
    uint64_t received;
    uint64_t sent;
    uint64_t not_sent;
    uint64_t missed; /* frames that the kernel had no room for */
};

/* Opens an interface for the frames of a station: real-time and DCP frames, LLDP, ARP, and calls on port 34964. On failure, ends the program with
 * a message. */
void wire_open(struct wire *wire, const char *interface);

/* Accepts frames for this MAC address too, if it is not the interface's own. */
void wire_take(struct wire *wire, const uint8_t mac[6]);

/* Joins the group of DCP's Identify. */
void wire_join_identify(struct wire *wire);

/* Joins the group of LLDP: the station at the other end of the cable. */
void wire_join_nearest(struct wire *wire);

/* Reads the next frame, from its destination on, with its tag if it has one. Returns whether there was one. */
int wire_receive(struct wire *wire, uint8_t octets[WIRE_FRAME], size_t *length);

/* Reads the next frame, and waits for it until a time of the clock (ticker_now). Returns whether there was one. */
int wire_wait(struct wire *wire, uint64_t until, uint8_t octets[WIRE_FRAME], size_t *length);

/* Sends a frame. Returns 0, or 1 if it was not sent. */
int wire_send(struct wire *wire, const uint8_t *octets, size_t length);

/* Checks whether the interface is up; ends the program if it was removed. Returns 1 if it came up, -1 if it went down, otherwise 0. */
int wire_look(struct wire *wire);

/* Room for the words of wire_why_down. */
#define WIRE_WHY 96

/* What to do about a link that is down. Returns the words. */
const char *wire_why_down(const struct wire *wire, char words[WIRE_WHY]);

/* How many frames the kernel dropped before the socket, since the start. */
uint64_t wire_missed(struct wire *wire);

/* The name of an interface of this machine that has this address, or NULL. The kernel answers ARP for it, on every interface. */
const char *wire_with_address(const uint8_t address[4]);

/* Whether a frame is one for or of the services of an address: ARP, or ICMP in IPv4. */
int wire_is_service(const uint8_t *octets, size_t length);

/* Whether a frame is one of LLDP. */
int wire_is_lldp(const uint8_t *octets, size_t length);

/* Whether a frame is cyclic: its FrameID is in a range of cyclic data. */
int wire_is_cyclic(const uint8_t *octets, size_t length);

/* The FrameID of a frame; 0 if it has none. */
unsigned wire_frame_id(const uint8_t *octets, size_t length);

/* The place of a frame's FrameID, after its tag if it has one; 0 if the frame has none. */
size_t wire_frame_id_at(const uint8_t *octets, size_t length);

#endif
