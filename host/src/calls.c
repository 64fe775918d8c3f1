#include "calls.h"
#include <string.h>

/* After Ethernet (14), IPv4 (20) and UDP (8). The header of DCE/RPC has 80 octets. */
#define RPC_AT 42u
#define SEQUENCE_AT (RPC_AT + 64u)
#define STATUS_AT (RPC_AT + 80u)
/* After the PNIOStatus and the sizes of the arguments. */
#define BLOCKS_AT (STATUS_AT + 20u)

/* From the header of DCE/RPC on: its length, the activity, and the ARUUID of the block of a control, after the header, the sizes of the
 * arguments (20), BlockHeader (6) and two octets that are reserved. */
#define HEADER 80u
#define ACTIVITY_AT 40u
#define AR_AT (HEADER + 28u)

/* From the header of DCE/RPC on: its first flags, the interface, the operation, and the first block, after the sizes of the arguments. */
#define FLAGS_AT 2u
#define INTERFACE_AT 24u
#define OPERATION_AT 68u
#define BLOCK_AT (HEADER + 20u)
#define FLAG_FRAGMENT 4u
#define OPERATION_WRITE 3u

/* In the header of a Write, of this many octets: the index of its record, and the number of octets that follow the header. */
#define WRITE_HEADER 64u
#define INDEX_AT 34u
#define LENGTH_AT 36u
#define INDEX_LIST 0xE040u

int calls_is(const uint8_t *octets, size_t length, unsigned type)
{
    return length >= STATUS_AT + 4 && octets[12] == 0x08 && octets[13] == 0x00 && octets[23] == 17 && octets[RPC_AT] == 4 && octets[RPC_AT + 1] == type;
}

int calls_is_release(const uint8_t *octets, size_t length)
{
    return calls_is(octets, length, CALLS_REQUEST) && length >= BLOCKS_AT + 2 && octets[BLOCKS_AT] == 0x01 && octets[BLOCKS_AT + 1] == 0x14;
}

/* Four octets at a place, with the most significant one first, whatever the order of the datagram is. */
static void read_four(const uint8_t *octets, unsigned at, uint8_t value[4])
{
    int is_little = octets[RPC_AT + 4] >> 4 == 1;
    for (int i = 0; i < 4; i++)
        value[i] = octets[at + (unsigned)(is_little ? 3 - i : i)];
}

uint32_t calls_sequence(const uint8_t *octets)
{
    uint8_t value[4];
    read_four(octets, SEQUENCE_AT, value);
    return (uint32_t)value[0] << 24 | (uint32_t)value[1] << 16 | (uint32_t)value[2] << 8 | value[3];
}

void calls_status(const uint8_t *octets, uint8_t status[4])
{
    read_four(octets, STATUS_AT, status);
}

const uint8_t *calls_blocks(const uint8_t *octets, size_t length, size_t *size)
{
    *size = length > BLOCKS_AT ? length - BLOCKS_AT : 0;
    return octets + (length > BLOCKS_AT ? BLOCKS_AT : 0);
}

/* The header of DCE/RPC in a frame, whatever is before it; 0 if the frame has none that is complete. */
static size_t header_at(const uint8_t *octets, size_t length)
{
    size_t at = length >= 18 && octets[12] == 0x81 && octets[13] == 0 ? 18 : 14;
    if (length < at + 20 || octets[at - 2] != 0x08 || octets[at - 1] != 0 || octets[at + 9] != 17)
        return 0;
    at += (size_t)(octets[at] & 15) * 4 + 8;
    return length < at + HEADER || octets[at] != 4 ? 0 : at;
}

/* Copies a UUID of the header with the most significant octet of each of its fields first, whatever the order of the datagram is. */
static void read_uuid(const uint8_t *header, size_t at, uint8_t uuid[16])
{
    static const uint8_t swapped[16] = {3, 2, 1, 0, 5, 4, 7, 6, 8, 9, 10, 11, 12, 13, 14, 15};
    int is_little = header[4] >> 4 == 1;
    for (size_t i = 0; i < 16; i++)
        uuid[i] = header[at + (is_little ? swapped[i] : i)];
}

int calls_read(const uint8_t *octets, size_t length, struct calls_numbers *numbers)
{
    size_t at = header_at(octets, length);
    if (at == 0)
        return 0;
    read_uuid(octets + at, ACTIVITY_AT, numbers->activity);
    numbers->has_ar = octets[at + 1] == CALLS_REQUEST;
    if (!numbers->has_ar)
        return 1;
    if (length < at + AR_AT + 16)
        return 0;
    memcpy(numbers->ar, octets + at + AR_AT, 16);
    return 1;
}

/* Whether the record of an index is stored: I&M data. */
static int is_stored(unsigned index)
{
    return index >= 0xAFF0u && index <= 0xAFFFu;
}

/* Whether a list of records has one that is stored, or is not understood. `list` are the headers and records of a Write with the index of
 * lists; each record is padded to a multiple of four octets. */
static int lists_stored(const uint8_t *list, size_t length)
{
    while (length >= WRITE_HEADER) {
        size_t size = (size_t)list[LENGTH_AT] << 24 | (size_t)list[LENGTH_AT + 1] << 16 | (size_t)list[LENGTH_AT + 2] << 8 | list[LENGTH_AT + 3];
        size_t each = WRITE_HEADER + (size + 3) / 4 * 4;
        if (is_stored((unsigned)(list[INDEX_AT] << 8 | list[INDEX_AT + 1])))
            return 1;
        if (each >= length)
            return 0;
        list += each;
        length -= each;
    }
    return 0;
}

/* The operation of a call. */
static unsigned operation_of(const uint8_t *header)
{
    const uint8_t *at = header + OPERATION_AT;
    return header[4] >> 4 == 1 ? at[0] | (unsigned)at[1] << 8 : (unsigned)at[0] << 8 | at[1];
}

/* Whether a datagram is a call of the interface of a PROFINET IO device; others have operations of their own. */
static int is_call(const uint8_t *header)
{
    static const uint8_t interface[16] = {0xDE, 0xA0, 0x00, 0x01, 0x6C, 0x97, 0x11, 0xD1, 0x82, 0x71, 0x00, 0xA0, 0x24, 0x42, 0xDF, 0x7D};
    uint8_t found[16];
    read_uuid(header, INTERFACE_AT, found);
    return header[1] == CALLS_REQUEST && memcmp(found, interface, sizeof found) == 0;
}

static int is_fragment(const uint8_t *header)
{
    return (header[FLAGS_AT] & FLAG_FRAGMENT) != 0;
}

int calls_may_store(const uint8_t *octets, size_t length)
{
    size_t at = header_at(octets, length);
    const uint8_t *header = octets + at, *write;
    unsigned index;
    if (at == 0 || !is_call(header) || operation_of(header) != OPERATION_WRITE)
        return 0;
    if (is_fragment(header) || length < at + BLOCK_AT + WRITE_HEADER)
        return 1;
    write = header + BLOCK_AT;
    index = (unsigned)(write[INDEX_AT] << 8 | write[INDEX_AT + 1]);
    return is_stored(index) || (index == INDEX_LIST && lists_stored(write + WRITE_HEADER, length - at - BLOCK_AT - WRITE_HEADER));
}
