#include "reading.h"
#include "decoded.h"
#include "naming.h"
#include "say.h"
#include "ticker.h"
#include "words.h"
#include <stdio.h>
#include <string.h>

/* How often the call is sent, a second apart, until it is answered. */
#define TRIES 3

static uint8_t octets[WIRE_FRAME];

static int is_wanted(const struct reading_station *wanted, const struct naming_station *found)
{
    if (wanted->name == NULL)
        return memcmp(found->mac, wanted->mac, sizeof found->mac) == 0;
    return found->name_length == wanted->name_length && memcmp(found->name, wanted->name, wanted->name_length) == 0;
}

/* Finds the station: asks for a second, or until the one with this MAC address answers. If none answers, or two have the name, ends the program. */
static void find(struct wire *wire, const struct reading_station *wanted, struct naming_station *station)
{
    struct naming_station found;
    uint64_t until = ticker_now() + SECOND;
    char first[WORDS_MAC], other[WORDS_MAC];
    int is_found = 0;
    if (wanted->name == NULL)
        naming_ask_all(wire);
    else
        naming_ask_named(wire, wanted->name, wanted->name_length);
    while ((wanted->name != NULL || !is_found) && naming_next_station(wire, until, &found)) {
        if (!is_wanted(wanted, &found))
            continue;
        if (is_found && memcmp(station->mac, found.mac, sizeof found.mac) != 0)
            fail(STATUS_IN_USE, "two stations have the name '%s': %s and %s. Name one by its MAC address (--from MAC)", wanted->word,
                 words_show_mac(first, station->mac), words_show_mac(other, found.mac));
        *station = found;
        is_found = 1;
    }
    if (!is_found)
        fail(STATUS_NO_INPUT, "no station '%s' answers Identify (--list lists the stations)", wanted->word);
}

/* Calls the station until it answers. Returns whether it did. */
static int call(const struct caller *caller, struct wire *wire, const pn_target *target, const struct access *access, struct access_answer *answer)
{
    uint8_t activity[16];
    size_t size;
    caller_make_activity(activity);
    for (int times = 0; times < TRIES; times++) {
        uint64_t until = ticker_now() + SECOND;
        caller_ask(caller, wire, target, activity, access);
        while (wire_wait(wire, until, octets, &size)) {
            caller_serve(caller, wire, octets, size);
            if (caller_hear(caller, activity, octets, size, answer))
                return 1;
        }
    }
    return 0;
}

void reading_print(const struct caller *caller, struct wire *wire, const struct reading_station *station, const struct access *access)
{
    static const uint8_t none[4];
    struct naming_station found;
    struct access_answer answer;
    pn_target target;
    char text[ACCESS_TEXT], mac[WORDS_MAC];
    find(wire, station, &found);
    words_show_mac(mac, found.mac);
    if (memcmp(found.address, none, sizeof none) == 0)
        fail(STATUS_SILENT, "the station '%s', %s, has no IP address, and answers no call: a controller sets one", station->word, mac);
    target = (pn_target){.vendor_id = found.vendor_id, .device_id = found.device_id};
    memcpy(target.mac, found.mac, sizeof target.mac);
    memcpy(target.address, found.address, sizeof target.address);
    if (!call(caller, wire, &target, access, &answer))
        fail(STATUS_SILENT, "the station '%s', %s, does not answer the read of index %u in slot %u subslot %u", station->word, mac, access->index,
             access->slot, access->subslot);
    access_words(access, &answer, text, sizeof text);
    if (answer.is_refused)
        fail(PN_WAS_REFUSED, "%s", text);
    puts(text);
    decoded_print(answer.octets, answer.length);
}
