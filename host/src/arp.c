#define _GNU_SOURCE
#include "arp.h"
#include "ticker.h"
#include <string.h>

#define PROBES 3
#define LEAST_PACKET 28u

int arp_is_zero(const uint8_t address[4])
{
    static const uint8_t zeros[4];
    return memcmp(address, zeros, 4) == 0;
}

void arp_request(uint8_t frame[ARP_FRAME], const uint8_t source[6], const uint8_t sender_address[4], const uint8_t target_address[4])
{
    /* EtherType, Ethernet and IPv4 with the lengths of their addresses, and the operation 'request'. */
    static const uint8_t head[] = {0x08, 0x06, 0, 1, 0x08, 0, 6, 4, 0, 1};
    memset(frame, 0, ARP_FRAME);
    memset(frame, 0xFF, 6);
    memcpy(frame + 6, source, 6);
    memcpy(frame + 12, head, sizeof head);
    memcpy(frame + 22, source, 6);
    memcpy(frame + 28, sender_address, 4);
    memcpy(frame + 38, target_address, 4);
}

int arp_read(const uint8_t *octets, size_t length, struct arp_packet *packet)
{
    static const uint8_t head[] = {0x08, 0x06, 0, 1, 0x08, 0, 6, 4, 0};
    size_t at = length >= 14 && octets[12] == 0x81 && octets[13] == 0 ? 16 : 12;
    if (length < at + 2 + LEAST_PACKET || memcmp(octets + at, head, sizeof head) != 0)
        return 0;
    packet->is_request = octets[at + 9] == 1;
    memcpy(packet->sender, octets + at + 10, 6);
    memcpy(packet->sender_address, octets + at + 16, 4);
    memcpy(packet->target_address, octets + at + 26, 4);
    return packet->is_request || octets[at + 9] == 2;
}

/* Whether a packet says that its sender has an address, or probes for it. */
static int is_holder(const struct arp_packet *packet, const uint8_t address[4])
{
    int is_probe = packet->is_request && arp_is_zero(packet->sender_address);
    return memcmp(is_probe ? packet->target_address : packet->sender_address, address, 4) == 0;
}

int arp_find(struct wire *wire, const uint8_t source[6], const uint8_t address[4], const uint8_t except[6], uint8_t found[6])
{
    static const uint8_t none[4];
    static uint8_t octets[WIRE_FRAME];
    uint8_t probe[ARP_FRAME];
    struct arp_packet packet;
    size_t length;
    arp_request(probe, source, none, address);
    for (int number = 1; number <= PROBES; number++) {
        uint64_t until = ticker_now() + (number < PROBES ? SECOND : 2 * SECOND);
        wire_send(wire, probe, sizeof probe);
        while (wire_wait(wire, until, octets, &length))
            if (arp_read(octets, length, &packet) && is_holder(&packet, address) && memcmp(packet.sender, except, 6) != 0 &&
                memcmp(packet.sender, source, 6) != 0) {
                memcpy(found, packet.sender, 6);
                return 1;
            }
    }
    return 0;
}
