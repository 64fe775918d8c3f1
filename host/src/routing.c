#include "routing.h"
#include "arp.h"
#include "calls.h"
#include "naming.h"
#include "wire.h"
#include <string.h>

enum { FRAME_SET = 0xFEFD, FRAME_IDENTIFY = 0xFEFE, FRAME_IDENTIFIED = 0xFEFF };

/* A relation that sets the address of this station. */
static int sets_at(const struct relation *relation, const uint8_t *mac)
{
    return relation->state == PN_ADDRESSING && memcmp(relation->waiting.device, mac, 6) == 0;
}

/* A relation with this station, from its Connect on. */
static int is_with(const struct relation *relation, const uint8_t *mac)
{
    return relation->state >= PN_CONNECTING && memcmp(relation->waiting.device, mac, 6) == 0;
}

static int takes_real_time(const struct relation *relation, const uint8_t *octets, size_t length)
{
    switch (wire_frame_id(octets, length)) {
    case FRAME_IDENTIFIED: return naming_has_name(octets, length, relation->plan.name, relation->plan.name_length);
    case FRAME_SET: return sets_at(relation, octets + 6);
    default: return is_with(relation, octets + 6);
    }
}

static int takes_call(const struct relation *relation, const struct calls_numbers *call)
{
    return call->has_ar ? memcmp(call->ar, relation->ar, 16) == 0 : memcmp(call->activity, relation->activity, 16) == 0;
}

int routing_is_request(const uint8_t *octets, size_t length)
{
    size_t at = wire_frame_id_at(octets, length);
    unsigned frame_id = wire_frame_id(octets, length);
    if (at == 0 || length < at + 4)
        return 0;
    return frame_id == FRAME_IDENTIFY || (frame_id == FRAME_SET && octets[at + 3] == 0);
}

struct relation *routing_find(struct relation *relations, unsigned count, const uint8_t *octets, size_t length)
{
    int is_real_time = wire_frame_id_at(octets, length) != 0;
    struct calls_numbers call;
    if (!is_real_time && !calls_read(octets, length, &call))
        return NULL;
    for (unsigned i = 0; i < count; i++) {
        struct relation *relation = &relations[i];
        if (relation_is_over(relation))
            continue;
        if (is_real_time ? takes_real_time(relation, octets, length) : takes_call(relation, &call))
            return relation;
    }
    return NULL;
}

struct relation *routing_find_sender(struct relation *relations, unsigned count, const uint8_t *octets, size_t length)
{
    struct arp_packet packet;
    if (!arp_read(octets, length, &packet))
        return NULL;
    for (unsigned i = 0; i < count; i++)
        if (!relation_is_over(&relations[i]) && memcmp(packet.sender_address, relations[i].plan.address, 4) == 0)
            return &relations[i];
    return NULL;
}
