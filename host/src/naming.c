#define _GNU_SOURCE
#include "naming.h"
#include "say.h"
#include "ticker.h"
#include "words.h"
#include <errno.h>
#include <stdarg.h>
#include <stdio.h>
#include <string.h>
#include <sys/random.h>

#define LEAST_FRAME 60u
#define BLOCKS_AT 26u /* after the addresses, EtherType, FrameID and the header of DCP */

enum { SERVICE_SET = 4, SERVICE_IDENTIFY = 5 };
enum { FRAME_SET = 0xFEFD, FRAME_IDENTIFY = 0xFEFE, FRAME_IDENTIFIED = 0xFEFF };

/* Numbers of requests up to this one are those of a controller. */
#define LAST_XID 2u

/* The number of the request whose answers count. */
static uint32_t xid;

uint32_t naming_make_xid(void)
{
    uint32_t made;
    do {
        if (getrandom(&made, sizeof made, 0) != (ssize_t)sizeof made)
            fail(STATUS_SYSTEM, "the system gives no random numbers: %s", strerror(errno));
    } while (made <= LAST_XID);
    return made;
}

/* The header of a request up to its blocks. */
static void put_head(uint8_t *frame, const uint8_t target[6], const uint8_t source[6], unsigned id, unsigned service, unsigned delay, size_t blocks)
{
    const uint8_t head[] = {0x88, 0x92, (uint8_t)(id >> 8), (uint8_t)id, (uint8_t)service, 0, (uint8_t)(xid >> 24), (uint8_t)(xid >> 16), (uint8_t)(xid >> 8),
                            (uint8_t)xid, 0, (uint8_t)delay, (uint8_t)(blocks >> 8), (uint8_t)blocks};
    memcpy(frame, target, 6);
    memcpy(frame + 6, source, 6);
    memcpy(frame + 12, head, sizeof head);
}

/* Waits until a time for the next answer to the last request. Returns whether one arrived. */
static int next_answer(struct wire *wire, unsigned id, unsigned service, uint64_t until, uint8_t octets[WIRE_FRAME], size_t *length)
{
    const uint8_t number[] = {(uint8_t)(xid >> 24), (uint8_t)(xid >> 16), (uint8_t)(xid >> 8), (uint8_t)xid};
    while (wire_wait(wire, until, octets, length))
        if (*length >= BLOCKS_AT && wire_frame_id_at(octets, *length) == 14 && octets[14] == id >> 8 && octets[15] == (id & 0xFF) &&
            octets[16] == service && octets[17] != 0 && memcmp(octets + 18, number, sizeof number) == 0)
            return 1;
    return 0;
}

/* The contents of a block of an answer, or NULL. */
static const uint8_t *find_block(const uint8_t *octets, size_t length, unsigned option, unsigned suboption, size_t *size)
{
    for (size_t at = BLOCKS_AT; at + 4 <= length; at += 4 + *size + *size % 2) {
        *size = (size_t)(octets[at + 2] << 8 | octets[at + 3]);
        if (*size > length - at - 4)
            return NULL;
        if (octets[at] == option && octets[at + 1] == suboption)
            return octets + at + 4;
        if (octets[at] == 0)
            return NULL; /* padding */
    }
    return NULL;
}

/* The value after a block's BlockInfo, or NULL. */
static const uint8_t *value_of(const uint8_t *octets, size_t length, unsigned option, unsigned suboption, size_t *size)
{
    const uint8_t *found = find_block(octets, length, option, suboption, size);
    if (found == NULL || *size < 2) {
        *size = 0;
        return NULL;
    }
    *size -= 2;
    return found + 2;
}

/* Appends words to a line that has room for them. */
static void append(char *line, const char *format, ...) __attribute__((format(printf, 2, 3)));
static void append(char *line, const char *format, ...)
{
    size_t length = strlen(line);
    va_list values;
    va_start(values, format);
    vsnprintf(line + length, NAMING_LINE - length, format, values);
    va_end(values);
}

static void read_station(const uint8_t *octets, size_t length, struct naming_station *station)
{
    char name[241], type[32];
    size_t name_size, type_size, ids_size, suite_size;
    const uint8_t *name_at = value_of(octets, length, 2, 2, &name_size), *type_at = value_of(octets, length, 2, 1, &type_size);
    const uint8_t *ids = value_of(octets, length, 2, 3, &ids_size), *suite = value_of(octets, length, 1, 2, &suite_size), *mac = octets + 6;
    memset(station, 0, sizeof *station);
    memcpy(station->mac, mac, sizeof station->mac);
    station->name_length = name_size < sizeof station->name ? name_size : sizeof station->name;
    if (name_at != NULL)
        memcpy(station->name, name_at, station->name_length);
    station->type_length = type_size < sizeof station->type ? type_size : sizeof station->type;
    if (type_at != NULL)
        memcpy(station->type, type_at, station->type_length);
    words_show_text(name, sizeof name, name_at, name_size);
    words_show_text(type, sizeof type, type_at, type_size);
    append(station->line, "%02x:%02x:%02x:%02x:%02x:%02x  name '%s'  type '%s'", mac[0], mac[1], mac[2], mac[3], mac[4], mac[5], name, type);
    if (ids_size >= 4) {
        station->vendor_id = (uint16_t)(ids[0] << 8 | ids[1]);
        station->device_id = (uint16_t)(ids[2] << 8 | ids[3]);
        append(station->line, "  VendorID %u DeviceID %u", station->vendor_id, station->device_id);
    }
    if (suite_size >= 4) {
        memcpy(station->address, suite, sizeof station->address);
        append(station->line, "  address %u.%u.%u.%u", suite[0], suite[1], suite[2], suite[3]);
    }
}

/* Sends an Identify with this block to all stations. */
static void send_identify(struct wire *wire, const uint8_t source[6], const uint8_t *block, size_t size)
{
    static const uint8_t group[6] = {0x01, 0x0E, 0xCF, 0, 0, 0};
    uint8_t frame[LEAST_FRAME + 256] = {0};
    put_head(frame, group, source, FRAME_IDENTIFY, SERVICE_IDENTIFY, 1, size);
    memcpy(frame + BLOCKS_AT, block, size);
    wire_send(wire, frame, BLOCKS_AT + size < LEAST_FRAME ? LEAST_FRAME : BLOCKS_AT + size);
}

void naming_ask_all(struct wire *wire)
{
    static const uint8_t all[] = {0xFF, 0xFF, 0, 0};
    xid = naming_make_xid();
    send_identify(wire, wire->hardware, all, sizeof all);
}

/* Sends an Identify for this name. */
static void ask_named(struct wire *wire, const uint8_t source[6], const uint8_t *name, size_t length)
{
    uint8_t block[4 + 240] = {2, 2, 0, (uint8_t)length};
    memcpy(block + 4, name, length);
    send_identify(wire, source, block, 4 + length + length % 2);
}

void naming_ask_named(struct wire *wire, const uint8_t *name, size_t length)
{
    xid = naming_make_xid();
    ask_named(wire, wire->hardware, name, length);
}

int naming_next_station(struct wire *wire, uint64_t until, struct naming_station *station)
{
    static uint8_t octets[WIRE_FRAME];
    size_t length;
    if (!next_answer(wire, FRAME_IDENTIFIED, SERVICE_IDENTIFY, until, octets, &length))
        return 0;
    read_station(octets, length, station);
    return 1;
}

/* An answer to Identify, from the place at which an untagged frame would begin, so that its blocks are at BLOCKS_AT. NULL for another
 * frame. `size` becomes the number of octets from there on. */
static const uint8_t *untagged_answer(const uint8_t *octets, size_t *size)
{
    size_t at = wire_frame_id_at(octets, *size);
    if (at == 0 || *size < at + BLOCKS_AT - 14 || wire_frame_id(octets, *size) != FRAME_IDENTIFIED || octets[at + 2] != SERVICE_IDENTIFY ||
        octets[at + 3] != 1)
        return NULL;
    *size -= at - 14;
    return octets + (at - 14);
}

int naming_has_name(const uint8_t *octets, size_t size, const uint8_t *name, size_t length)
{
    const uint8_t *answer = untagged_answer(octets, &size), *found;
    size_t found_size;
    if (answer == NULL)
        return 0;
    found = value_of(answer, size, 2, 2, &found_size);
    return found != NULL && found_size == length && memcmp(found, name, length) == 0;
}

const uint8_t *naming_identity(const uint8_t *octets, size_t size)
{
    const uint8_t *answer = untagged_answer(octets, &size), *found;
    size_t found_size;
    if (answer == NULL)
        return NULL;
    found = value_of(answer, size, 2, 3, &found_size);
    return found_size < 4 ? NULL : found;
}

int naming_is_another(struct holders *holders, const uint8_t *octets)
{
    const uint8_t *mac = octets + 6;
    for (unsigned i = 0; i < holders->count; i++)
        if (memcmp(holders->list[i], mac, 6) == 0)
            return 0;
    if (holders->count == NAMING_HOLDERS)
        return 0;
    memcpy(holders->list[holders->count], mac, 6);
    holders->count++;
    return holders->count > 1;
}

int naming_find(struct wire *wire, const uint8_t source[6], const uint8_t *name, size_t length, const uint8_t except[6], uint8_t found[6])
{
    static uint8_t octets[WIRE_FRAME];
    size_t size;
    if (length > 240)
        return 0;
    xid = naming_make_xid();
    for (int times = 0; times < 2; times++) {
        uint64_t until = ticker_now() + SECOND / 2;
        ask_named(wire, source, name, length);
        while (next_answer(wire, FRAME_IDENTIFIED, SERVICE_IDENTIFY, until, octets, &size))
            if (naming_has_name(octets, size, name, length) && memcmp(octets + 6, except, 6) != 0) {
                memcpy(found, octets + 6, 6);
                return 1;
            }
    }
    return 0;
}

/* The BlockError of an answer to Set; 0 if the station has the name. */
static int outcome_of(const uint8_t *octets, size_t length)
{
    size_t size = 0;
    const uint8_t *said = find_block(octets, length, 5, 4, &size);
    return said != NULL && size >= 3 ? said[2] : 1;
}

int naming_assign(struct wire *wire, const uint8_t source[6], const uint8_t mac[6], const uint8_t *name, size_t length)
{
    static uint8_t octets[WIRE_FRAME];
    uint8_t frame[LEAST_FRAME + 256] = {0};
    size_t blocks = 6 + length + length % 2, came;
    const uint8_t head[] = {2, 2, (uint8_t)((length + 2) >> 8), (uint8_t)(length + 2), 0, 1 /* permanent */};
    if (length > 240)
        return -1;
    xid = naming_make_xid();
    put_head(frame, mac, source, FRAME_SET, SERVICE_SET, 0, blocks);
    memcpy(frame + BLOCKS_AT, head, sizeof head);
    memcpy(frame + BLOCKS_AT + sizeof head, name, length);
    for (int times = 0; times < 3; times++) {
        uint64_t until = ticker_now() + SECOND;
        wire_send(wire, frame, BLOCKS_AT + blocks < LEAST_FRAME ? LEAST_FRAME : BLOCKS_AT + blocks);
        while (next_answer(wire, FRAME_SET, SERVICE_SET, until, octets, &came))
            if (memcmp(octets + 6, mac, 6) == 0)
                return outcome_of(octets, came);
    }
    return -1;
}
