/* How often a device stores settings. DCP has no authentication, each stored setting is a commit of the flash, and a flash takes a limited
 * number of them; a limit makes it last longer. Settings come in DCP Sets, and in Writes of I&M records: each record that is stored is a
 * commit, in a Write of its own, in a list of records, or in a call whose fragments are joined. */
#ifndef HOST_SETS_H
#define HOST_SETS_H

#include <stddef.h>
#include <stdint.h>

#define SETS_MOST 1000000u /* a second */
/* Without an option: a commissioning tool stores some ten settings of a device, and a controller one at a start after a power failure. At three an
 * hour the 983,025 commits of a new flash last 37 years, and 65,535 would last 2 years and 5 months. */
#define SETS_AN_HOUR 3u
#define SETS_AT_ONCE 256u
/* A frame that was dropped is reported at once, and those after it at most this often. */
#define SETS_PAUSE 60000000000ull /* nanoseconds */

struct sets {
    uint64_t limit;          /* an hour; 0: no limit */
    uint32_t at_once;        /* how many may come at once */
    int64_t room;            /* in parts of a commit; below 0 after a frame that stored more than there was room for */
    uint64_t filled;         /* when the room was last updated, in nanoseconds of the clock */
    uint64_t dropped;        /* Sets beyond the limit */
    uint64_t writes_dropped; /* Writes, and fragments of Writes, beyond the limit */
    uint64_t told;           /* how many of both were reported */
    uint64_t told_at;        /* when; 0: never */
    uint8_t sender[6];       /* of the last one */
    int is_write;
};

/* Sets a limit of commits an hour, 0 for no limit, and of those that may come at once. At first there is room for these. */
void sets_limit(struct sets *sets, uint64_t an_hour, uint32_t at_once, uint64_t now);

/* Whether a frame is a Set to this MAC address. */
int sets_is_set(const uint8_t *octets, size_t length, const uint8_t mac[6]);

/* Whether a frame may store settings: a Set to this MAC address with another block than those of a signal and of a transaction, or a Write of
 * calls_may_store. */
int sets_may_store(const uint8_t *octets, size_t length, const uint8_t mac[6]);

/* Whether to hand a received frame to the device. Every frame is handed in except, while there is no room for a commit, one that may store
 * settings; these are counted and dropped as if the network had lost them. */
int sets_let_in(struct sets *sets, const uint8_t *octets, size_t length, const uint8_t mac[6], uint64_t now);

/* Takes the room for the commits that a frame that was handed in has made. */
void sets_stored(struct sets *sets, uint32_t commits);

/* How many frames were dropped that were not reported yet, if it is time to report them; 0 if not. They count as reported then. */
uint64_t sets_to_tell(struct sets *sets, uint64_t now);

#endif
