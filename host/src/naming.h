/* What an engineering tool does by DCP before a controller starts: it finds all stations, or those with a name, and sets the name of one. The
 * frames are built here, and no proved source takes part. */
#ifndef HOST_NAMING_H
#define HOST_NAMING_H

#include "wire.h"

/* A station that answered Identify. */
#define NAMING_LINE 384
struct naming_station {
    char line[NAMING_LINE]; /* what it says of itself, for --list */
    uint8_t mac[6];
    uint8_t name[240]; /* NameOfStation */
    size_t name_length;
    uint8_t type[240]; /* its type (DeviceVendorValue) */
    size_t type_length;
    uint8_t address[4]; /* zeros if it has none */
    uint16_t vendor_id;
    uint16_t device_id;
};

/* The number of a new request (Xid): a random one, and none of a controller's. Only answers to the last request here count. */
uint32_t naming_make_xid(void);

/* Asks all stations who they are. */
void naming_ask_all(struct wire *wire);

/* Asks the stations with this name, at most 240 octets, who they are. */
void naming_ask_named(struct wire *wire, const uint8_t *name, size_t length);

/* Waits until a time of the clock for the next one that answers. Returns whether one did. */
int naming_next_station(struct wire *wire, uint64_t until, struct naming_station *station);

/* Sets a name permanently at the station with this MAC address. Returns 0, the BlockError of its refusal, or -1 without an answer. */
int naming_assign(struct wire *wire, const uint8_t source[6], const uint8_t mac[6], const uint8_t *name, size_t length);

/* Asks for a second which stations have a name. Returns whether one other than `except` answers, and its MAC address. */
int naming_find(struct wire *wire, const uint8_t source[6], const uint8_t *name, size_t length, const uint8_t except[6], uint8_t found[6]);

/* Whether a received frame is an answer to Identify from a station with this name. */
int naming_has_name(const uint8_t *octets, size_t size, const uint8_t *name, size_t length);

/* The VendorID and the DeviceID of such an answer, two octets each, or NULL. */
const uint8_t *naming_identity(const uint8_t *octets, size_t size);

/* The stations that answered to a name. Stations beyond the limit are not kept. */
#define NAMING_HOLDERS 8
struct holders {
    unsigned count;
    uint8_t list[NAMING_HOLDERS][6];
};

/* Keeps the station that sent an answer. Returns whether it is new, and not the first. */
int naming_is_another(struct holders *holders, const uint8_t *octets);

#endif
