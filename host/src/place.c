#define _GNU_SOURCE
#include "place.h"
#include "loop.h"
#include "ticker.h"
#include <string.h>

/* How often the Set is sent, a second apart, until it is answered. */
#define TRIES 3

static pn_op op;
static uint8_t octets[WIRE_FRAME];

void place_find(struct wire *wire, pn_tool *tool, const char *place, pn_search *search)
{
    size_t size;
    loop_must(pn_tool_ask(tool, search, &op, (const uint8_t *)place, strlen(place)), "pn_tool_ask");
    for (int times = 0; times < 2; times++) {
        uint64_t until = ticker_now() + SECOND / 2;
        wire_send(wire, op.octets, op.length);
        while (wire_wait(wire, until, octets, &size))
            loop_must(pn_tool_heard(tool, search, octets, size), "pn_tool_heard");
    }
}

uint32_t place_judge(const pn_tool *tool, const pn_search *search, const uint8_t *name, size_t length)
{
    pn_tool judges = *tool;
    return pn_tool_give(&judges, search, &op, name, length);
}

int place_name(struct wire *wire, pn_tool *tool, const pn_search *search, const uint8_t *name, size_t length)
{
    size_t size;
    loop_must(pn_tool_give(tool, search, &op, name, length), "pn_tool_give");
    for (int times = 0; times < TRIES; times++) {
        uint64_t until = ticker_now() + SECOND;
        wire_send(wire, op.octets, op.length);
        while (wire_wait(wire, until, octets, &size))
            if (pn_tool_given(tool, search, &op, octets, size) == PN_OK)
                return (int)op.block_error;
    }
    return -1;
}
