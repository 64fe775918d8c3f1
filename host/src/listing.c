#include "listing.h"
#include "naming.h"
#include "ports.h"
#include "reasons.h"
#include "say.h"
#include "statuses.h"
#include "ticker.h"
#include "words.h"
#include <stdio.h>
#include <string.h>

/* The most stations whose ports are read, and the most that are listed. */
#define STATIONS 512u
#define LISTED 4096u

/* The records that are read, the second one from stations that do not have the first: PDRealData of the station, and PDPortDataReal of the
 * port that stations with one port have. */
#define INDEX_ALL 0xF841u
#define INDEX_PORT 0x802Au
#define SUBSLOT_PORT 0x8001u

/* Room for the line of a station, or for its members as an object of JSON. */
#define LINE (2 * WORDS_JSON(240) + 200)

struct station {
    char line[LINE];
    char words[4096]; /* of its ports, or why there are none */
    pn_target target;
    uint8_t activity[16]; /* of the read that waits for its answer */
    int is_waiting;
    int is_done; /* its ports are known */
};

static int is_json;
static struct station stations[STATIONS];
static uint8_t known[LISTED][6]; /* the MAC address of each station that answered */
static uint8_t octets[WIRE_FRAME];

/* --- Who is there --- */

/* Whether one of these stations has this MAC address. */
static int is_known(unsigned count, const uint8_t mac[6])
{
    for (unsigned i = 0; i < count; i++)
        if (memcmp(known[i], mac, sizeof known[i]) == 0)
            return 1;
    return 0;
}

/* The members of the object of a station, up to its ports. */
static void members(const struct naming_station *found, char line[LINE])
{
    char mac[WORDS_MAC], name[WORDS_JSON(240)], type[WORDS_JSON(240)];
    const uint8_t *address = found->address;
    words_json(name, found->name, found->name_length);
    words_json(type, found->type, found->type_length);
    snprintf(line, LINE, "{\"mac\": \"%s\", \"name\": %s, \"type\": %s, \"vendor_id\": %u, \"device_id\": %u, \"address\": \"%u.%u.%u.%u\"",
             words_show_mac(mac, found->mac), name, type, found->vendor_id, found->device_id, address[0], address[1], address[2], address[3]);
}

/* Prints what is known of a station; of JSON the text up to its end, with what ends the object before. */
static void print(const char *line, const char *words)
{
    static int has_printed;
    if (!is_json)
        printf("%s%s\n", line, words);
    else
        printf("%s%s, \"ports\": %s}", has_printed ? ",\n " : "[", line, words[0] == '\0' ? "null" : words);
    has_printed = 1;
}

/* Each station once, by its MAC address: the first of its answers. */
static unsigned find_all(struct wire *wire)
{
    static char line[LINE];
    struct naming_station found;
    uint64_t until = ticker_now() + SECOND;
    unsigned count = 0;
    naming_ask_all(wire);
    while (naming_next_station(wire, until, &found)) {
        if (is_known(count, found.mac))
            continue;
        if (count == LISTED) {
            say("more than %u stations answer; the others are not listed", LISTED);
            return count;
        }
        memcpy(known[count], found.mac, sizeof known[count]);
        if (is_json)
            members(&found, line);
        else
            strcpy(line, found.line);
        if (count < STATIONS) {
            struct station *station = &stations[count];
            memset(station, 0, sizeof *station);
            strcpy(station->line, line);
            memcpy(station->target.mac, found.mac, 6);
            memcpy(station->target.address, found.address, 4);
            station->target.vendor_id = found.vendor_id;
            station->target.device_id = found.device_id;
        } else {
            print(line, "");
        }
        count++;
    }
    return count;
}

/* --- Their ports --- */

static int has_address(const pn_target *target)
{
    static const uint8_t none[4];
    return memcmp(target->address, none, sizeof none) != 0;
}

/* Asks a station for a record of its ports. */
static void ask(const struct caller *caller, struct wire *wire, struct station *station, const struct access *access)
{
    caller_make_activity(station->activity);
    station->is_waiting = 1;
    caller_ask(caller, wire, &station->target, station->activity, access);
}

/* Why the ports are not known; in JSON they are null, and a member says it. */
static void put_reason(struct station *station, const char *kind, const char *reason)
{
    snprintf(station->words, sizeof station->words, is_json ? "null, \"ports_unknown\": \"%s%s\"" : "  ports %s%s", kind, reason);
}

/* Notes an answer. */
static void note(struct station *station, const struct access_answer *answer)
{
    static char ports[4000];
    char words[STATUSES_LONGEST + 32];
    station->is_waiting = 0;
    if (answer->is_refused) {
        reasons_status(answer->status, words, sizeof words);
        put_reason(station, "refused: ", words);
        return;
    }
    station->is_done = (is_json ? ports_json : ports_words)(answer->octets, answer->length, ports, sizeof ports) && ports[0] != '\0';
    if (!station->is_done)
        put_reason(station, "unknown: ", "the record is not whole, or has no port");
    else
        snprintf(station->words, sizeof station->words, is_json ? "[%s]" : "%s", ports);
}

static void hear(const struct caller *caller, unsigned count, size_t size)
{
    struct access_answer answer;
    for (unsigned i = 0; i < count; i++)
        if (stations[i].is_waiting && caller_hear(caller, stations[i].activity, octets, size, &answer)) {
            note(&stations[i], &answer);
            return;
        }
}

static unsigned waiting(unsigned count)
{
    unsigned waits = 0;
    for (unsigned i = 0; i < count; i++)
        waits += (unsigned)stations[i].is_waiting;
    return waits;
}

/* Asks each station whose ports are not known, twice in a second. */
static void read_all(const struct caller *caller, struct wire *wire, unsigned count, const struct access *access)
{
    size_t size;
    for (unsigned i = 0; i < count; i++)
        stations[i].is_waiting = 0;
    for (int times = 0; times < 2; times++) {
        uint64_t until = ticker_now() + SECOND / 2;
        for (unsigned i = 0; i < count; i++)
            if (!stations[i].is_done && has_address(&stations[i].target) && (times == 0 || stations[i].is_waiting))
                ask(caller, wire, &stations[i], access);
        while (waiting(count) != 0 && wire_wait(wire, until, octets, &size)) {
            caller_serve(caller, wire, octets, size);
            hear(caller, count, size);
        }
    }
    for (unsigned i = 0; i < count; i++)
        if (stations[i].is_waiting)
            put_reason(&stations[i], "unknown: ", "no answer to the read");
}

unsigned listing_print(const struct caller *caller, struct wire *wire, int as_json)
{
    static const struct access all = {.index = INDEX_ALL}, port = {.subslot = SUBSLOT_PORT, .index = INDEX_PORT};
    unsigned found, count;
    is_json = as_json;
    found = find_all(wire);
    count = found < STATIONS ? found : STATIONS;
    if (caller->has_address) {
        read_all(caller, wire, count, &all);
        read_all(caller, wire, count, &port);
    }
    for (unsigned i = 0; i < count; i++)
        print(stations[i].line, stations[i].words);
    if (is_json)
        puts(found == 0 ? "[]" : "]");
    return found;
}
