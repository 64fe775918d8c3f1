#include "sets.h"
#include "calls.h"
#include "wire.h"
#include <string.h>

/* A commit uses this many parts of the room. Each nanosecond adds as many parts as the limit has commits. */
#define SETS_PART 3600000000000ll

enum { FRAME_SET = 0xFEFD, SERVICE_SET = 4, REQUEST = 0, CONTROL = 5, SIGNAL = 3 };

void sets_limit(struct sets *sets, uint64_t an_hour, uint32_t at_once, uint64_t now)
{
    memset(sets, 0, sizeof *sets);
    sets->limit = an_hour;
    sets->at_once = at_once;
    sets->room = at_once * SETS_PART;
    sets->filled = now;
}

int sets_is_set(const uint8_t *octets, size_t length, const uint8_t mac[6])
{
    size_t at = wire_frame_id_at(octets, length);
    return at != 0 && length >= at + 4 && wire_frame_id(octets, length) == FRAME_SET && octets[at + 2] == SERVICE_SET && octets[at + 3] == REQUEST &&
           memcmp(octets, mac, 6) == 0;
}

/* Whether a Set has a block that may store something: each one but Signal and those that begin and end a transaction. What cannot be read
 * counts as one. */
static int has_setting(const uint8_t *octets, size_t length)
{
    size_t at = wire_frame_id_at(octets, length) + 12, end;
    if (length < at)
        return 1;
    end = at + (size_t)(octets[at - 2] << 8 | octets[at - 1]);
    if (end > length)
        return 1;
    while (at + 4 <= end) {
        size_t size = (size_t)(octets[at + 2] << 8 | octets[at + 3]);
        if (octets[at] != CONTROL || octets[at + 1] > SIGNAL)
            return 1;
        at += 4 + size + size % 2;
    }
    return 0;
}

int sets_may_store(const uint8_t *octets, size_t length, const uint8_t mac[6])
{
    return sets_is_set(octets, length, mac) ? has_setting(octets, length) : calls_may_store(octets, length);
}

/* Adds the parts for the elapsed time, up to the room for the commits that may come at once. */
static void fill(struct sets *sets, uint64_t now)
{
    int64_t most = sets->at_once * SETS_PART, missing = most - sets->room;
    uint64_t passed = now - sets->filled;
    sets->filled = now;
    if (passed >= (uint64_t)missing / sets->limit + 1)
        sets->room = most;
    else
        sets->room += (int64_t)(passed * sets->limit);
}

int sets_let_in(struct sets *sets, const uint8_t *octets, size_t length, const uint8_t mac[6], uint64_t now)
{
    int is_set;
    if (sets->limit == 0 || !sets_may_store(octets, length, mac))
        return 1;
    fill(sets, now);
    if (sets->room >= SETS_PART)
        return 1;
    is_set = sets_is_set(octets, length, mac);
    sets->dropped += (uint64_t)is_set;
    sets->writes_dropped += (uint64_t)!is_set;
    sets->is_write = !is_set;
    memcpy(sets->sender, octets + 6, sizeof sets->sender);
    return 0;
}

void sets_stored(struct sets *sets, uint32_t commits)
{
    if (sets->limit != 0)
        sets->room -= commits * SETS_PART;
}

uint64_t sets_to_tell(struct sets *sets, uint64_t now)
{
    uint64_t count = sets->dropped + sets->writes_dropped - sets->told;
    if (count == 0 || (sets->told_at != 0 && now - sets->told_at < SETS_PAUSE))
        return 0;
    sets->told += count;
    sets->told_at = now;
    return count;
}
