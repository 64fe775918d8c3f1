#define _GNU_SOURCE
#include "duplicate.h"
#include "arp.h"
#include "ticker.h"
#include "words.h"
#include <stdio.h>
#include <string.h>

#define FRAME_IDENTIFY 0xFEFEu
/* The requests after that of the last Identify. */
#define REPEATS 2
/* The shortest time between two reports. */
#define PAUSE (10 * SECOND)

void duplicate_start(struct duplicate *duplicate, const pn_plan *plan)
{
    uint64_t pauses = duplicate->pauses;
    memset(duplicate, 0, sizeof *duplicate);
    duplicate->plan = plan;
    duplicate->pauses = pauses;
}

static void ask(struct duplicate *duplicate, struct wire *wire)
{
    const pn_plan *plan = duplicate->plan;
    uint8_t frame[ARP_FRAME];
    arp_request(frame, plan->controller_mac, plan->controller_address, plan->address);
    wire_send(wire, frame, sizeof frame);
    duplicate->asked = ticker_now();
}

void duplicate_sent(struct duplicate *duplicate, struct wire *wire, const uint8_t *octets, size_t length)
{
    if (wire_frame_id(octets, length) == FRAME_IDENTIFY) {
        if (!wire->is_up || arp_is_zero(duplicate->plan->address))
            return;
        ask(duplicate, wire);
        duplicate->left = REPEATS;
    } else if (length >= 14 && octets[0] % 2 == 0) { /* not to all stations */
        memcpy(duplicate->station, octets, sizeof duplicate->station);
        duplicate->has_station = 1;
    }
}

void duplicate_ask(struct duplicate *duplicate, struct wire *wire)
{
    if (duplicate->left == 0 || ticker_now() < duplicate->asked + SECOND)
        return;
    duplicate->left--;
    ask(duplicate, wire);
}

void duplicate_hear(struct duplicate *duplicate, const uint8_t *octets, size_t length)
{
    struct arp_packet packet;
    if (!arp_read(octets, length, &packet) || arp_is_zero(packet.sender_address) ||
        memcmp(packet.sender_address, duplicate->plan->address, 4) != 0 || memcmp(packet.sender, duplicate->plan->controller_mac, 6) == 0)
        return;
    for (unsigned i = 0; i < duplicate->count; i++)
        if (memcmp(duplicate->list[i], packet.sender, 6) == 0)
            return;
    if (duplicate->count < DUPLICATE_SENDERS)
        memcpy(duplicate->list[duplicate->count++], packet.sender, 6);
}

/* Another station that was heard since the last report, or NULL. */
static const uint8_t *find_other(const struct duplicate *duplicate)
{
    for (unsigned i = 0; i < duplicate->count; i++)
        if (memcmp(duplicate->list[i], duplicate->station, 6) != 0)
            return duplicate->list[i];
    return NULL;
}

int duplicate_line(struct duplicate *duplicate, char *text, size_t size)
{
    const pn_plan *plan = duplicate->plan;
    const uint8_t *other = find_other(duplicate), *address = plan->address;
    char mac[WORDS_MAC];
    if (!duplicate->has_station || other == NULL)
        return 0;
    words_show_mac(mac, other);
    duplicate->count = 0;
    if (duplicate->pauses != 0 && ticker_now() < duplicate->pauses)
        return 0;
    duplicate->pauses = ticker_now() + PAUSE;
    snprintf(text, size, "warning: another station, %s, uses the address %u.%u.%u.%u of '%.*s' (Project.IPAddress)", mac, address[0], address[1],
             address[2], address[3], (int)plan->name_length, (const char *)plan->name);
    return 1;
}
