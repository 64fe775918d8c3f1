#include "refusal.h"
#include "calls.h"
#include "wire.h"
#include <string.h>

enum { FRAME_SET = 0xFEFD, SERVICE_SET = 4, SUCCESS = 1, CONTROL = 5, RESPONSE = 4, SET_NOT_POSSIBLE = 5 };
enum { ETHERNET = 14, INTERNET = 20, DATAGRAM = 8, HEADER = 80, ARGUMENTS = 20, OPERATION_WRITE = 3 };
/* In the header of DCE/RPC: the operation, and the length of the body. */
enum { OPERATION_AT = 68, BODY_AT = 74 };
/* In the block of a record that a Write wrote, of this many octets: the index, and the status. */
enum { WRITTEN = 64, INDEX_AT = 34, STATUS_AT = 44 };

#define INDEX_LIST 0xE040u
#define SHORTEST 60u

static const uint8_t failed[4] = {0xDF, 0x80, 0xB5, 0x05};

static unsigned two(const uint8_t *octets)
{
    return (unsigned)(octets[0] << 8 | octets[1]);
}

static void put_two(uint8_t *octets, unsigned number)
{
    octets[0] = (uint8_t)(number >> 8);
    octets[1] = (uint8_t)number;
}

/* The answer to a Set: each block that reports success reports that nothing was set. */
static size_t refuse_set(uint8_t *octets, size_t length, size_t at)
{
    size_t end = at + 12 + two(octets + at + 10);
    for (at += 12; at + 7 <= end && end <= length; at += 4 + (two(octets + at + 2) + 1u) / 2 * 2)
        if (octets[at] == CONTROL && octets[at + 1] == RESPONSE && octets[at + 6] == 0)
            octets[at + 6] = SET_NOT_POSSIBLE;
    return length;
}

/* The checksum of the header of IPv4. */
static void check(uint8_t *header)
{
    uint32_t sum = 0;
    put_two(header + 10, 0);
    for (unsigned i = 0; i < INTERNET; i += 2)
        sum += two(header + i);
    while (sum >> 16 != 0)
        sum = (sum & 0xFFFF) + (sum >> 16);
    put_two(header + 10, ~sum & 0xFFFF);
}

/* Gives the datagram this many octets after the header of DCE/RPC, and no checksum of its own. */
static size_t resize(uint8_t *octets, size_t body)
{
    uint8_t *call = octets + ETHERNET + INTERNET + DATAGRAM;
    size_t length = ETHERNET + INTERNET + DATAGRAM + HEADER + body;
    int is_little = call[4] >> 4 == 1;
    call[BODY_AT] = (uint8_t)(is_little ? body : body >> 8);
    call[BODY_AT + 1] = (uint8_t)(is_little ? body >> 8 : body);
    put_two(octets + ETHERNET + INTERNET + 4, (unsigned)(DATAGRAM + HEADER + body));
    put_two(octets + ETHERNET + INTERNET + 6, 0);
    put_two(octets + ETHERNET + 2, (unsigned)(length - ETHERNET));
    check(octets + ETHERNET);
    memset(octets + length, 0, length < SHORTEST ? SHORTEST - length : 0);
    return length < SHORTEST ? SHORTEST : length;
}

/* The answer to a list of records: each one that is stored, and that reports success, reports the failure. */
static size_t refuse_list(uint8_t *octets, size_t body)
{
    uint8_t *block = octets + ETHERNET + INTERNET + DATAGRAM + HEADER + ARGUMENTS + WRITTEN;
    for (size_t left = body - ARGUMENTS - WRITTEN; left >= WRITTEN; left -= WRITTEN, block += WRITTEN) {
        unsigned index = two(block + INDEX_AT);
        if (index >= 0xAFF0 && index <= 0xAFFF && memcmp(block + STATUS_AT, "\0\0\0\0", 4) == 0)
            memcpy(block + STATUS_AT, failed, sizeof failed);
    }
    return resize(octets, body);
}

static size_t refuse_write(uint8_t *octets, size_t length)
{
    uint8_t *call = octets + ETHERNET + INTERNET + DATAGRAM, *body = call + HEADER;
    int is_little = call[4] >> 4 == 1;
    unsigned operation = is_little ? (unsigned)(call[OPERATION_AT] | call[OPERATION_AT + 1] << 8) : two(call + OPERATION_AT);
    size_t size = is_little ? (size_t)(call[BODY_AT] | call[BODY_AT + 1] << 8) : two(call + BODY_AT);
    if (operation != OPERATION_WRITE || length < ETHERNET + INTERNET + DATAGRAM + HEADER + size || size < ARGUMENTS)
        return 0;
    if (memcmp(body, "\0\0\0\0", 4) != 0)
        return length; /* it is refused for another reason */
    if (size >= ARGUMENTS + WRITTEN && two(body + ARGUMENTS + INDEX_AT) == INDEX_LIST)
        return refuse_list(octets, size);
    for (unsigned i = 0; i < 4; i++)
        body[i] = failed[is_little ? 3 - i : i];
    memset(body + 4, 0, 4);   /* no octets of arguments */
    memset(body + 12, 0, 8);
    return resize(octets, ARGUMENTS);
}

size_t refusal_of(uint8_t *octets, size_t length)
{
    size_t at = wire_frame_id_at(octets, length);
    if (at != 0 && length >= at + 12 && wire_frame_id(octets, length) == FRAME_SET && octets[at + 2] == SERVICE_SET && octets[at + 3] == SUCCESS)
        return refuse_set(octets, length, at);
    return calls_is(octets, length, CALLS_RESPONSE) && octets[ETHERNET] == 0x45 ? refuse_write(octets, length) : 0;
}
