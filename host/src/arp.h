/* ARP for Ethernet and IPv4: requests, what a packet says, and who has an address. It is used only for reports, and for the check before
 * --assign; no proved source takes part. */
#ifndef HOST_ARP_H
#define HOST_ARP_H

#include "wire.h"

#define ARP_FRAME 60u

struct arp_packet {
    uint8_t sender[6];
    uint8_t sender_address[4];
    uint8_t target_address[4];
    int is_request;
};

/* Writes a request to all stations. A sender address of 0.0.0.0 makes it a probe (RFC 5227). */
void arp_request(uint8_t frame[ARP_FRAME], const uint8_t source[6], const uint8_t sender_address[4], const uint8_t target_address[4]);

/* Reads a received frame. Returns whether it is a packet of ARP. */
int arp_read(const uint8_t *octets, size_t length, struct arp_packet *packet);

/* Whether an address is 0.0.0.0. */
int arp_is_zero(const uint8_t address[4]);

/* Looks for a station other than `except` that has an address or is about to use it, as RFC 5227 says: three probes a second apart, and two
 * seconds after the last. Returns whether there is one, and its MAC address. */
int arp_find(struct wire *wire, const uint8_t source[6], const uint8_t address[4], const uint8_t except[6], uint8_t found[6]);

#endif
