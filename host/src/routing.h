/* Which relation a received frame is for, in a process that has several. */
#ifndef HOST_ROUTING_H
#define HOST_ROUTING_H

#include "relation.h"

/* The relation of a frame, or NULL if it is for none of them:
 * - an answer to Identify: the one whose plan has the name in the answer;
 * - an answer to a Set: the one that sets the address at this station;
 * - a cyclic frame or an alarm: the one whose device sent it, by its MAC address;
 * - a response to a call: the one with this activity;
 * - a call: the one with this ARUUID.
 * A relation whose controller is over gets no frame. Frames of ARP and ICMP are for the address that all controllers have, and so for none
 * of them here. */
struct relation *routing_find(struct relation *relations, unsigned count, const uint8_t *octets, size_t length);

/* Whether a frame is a DCP request: an Identify, or a Get or a Set with ServiceType 0. All controllers are one station to tools. */
int routing_is_request(const uint8_t *octets, size_t length);

/* The relation whose plan has the address of the sender of a packet of ARP, or NULL. */
struct relation *routing_find_sender(struct relation *relations, unsigned count, const uint8_t *octets, size_t length);

#endif
