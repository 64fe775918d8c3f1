#define _GNU_SOURCE
#include "waiting.h"
#include "arp.h"
#include "calls.h"
#include "reasons.h"
#include "ticker.h"
#include "words.h"
#include <inttypes.h>
#include <stdio.h>
#include <string.h>

#define FIRST_PAUSE (5 * SECOND)

static void note_progress(struct waiting *waiting)
{
    waiting->since = ticker_now();
    waiting->pause = FIRST_PAUSE;
    waiting->is_asked = 0;
    waiting->is_busy = 0;
}

void waiting_start(struct waiting *waiting, const pn_plan *plan)
{
    memset(waiting, 0, sizeof *waiting);
    waiting->plan = plan;
    note_progress(waiting);
}

void waiting_state(struct waiting *waiting, uint32_t state)
{
    if (state == waiting->state)
        return;
    waiting->state = state;
    note_progress(waiting);
}

void waiting_sent(struct waiting *waiting, const uint8_t *octets, size_t length)
{
    if (length >= 14 && octets[0] % 2 == 0) /* not to all stations */
        memcpy(waiting->device, octets, sizeof waiting->device);
    if (!calls_is(octets, length, CALLS_REQUEST) || calls_sequence(octets) == waiting->sequence)
        return;
    waiting->sequence = calls_sequence(octets);
    if (waiting->is_busy)
        waiting->tries++;
    else
        note_progress(waiting);
}

/* The answer to the last call, if it is a Write of the start-up or PrmEnd. */
static void hear_answer(struct waiting *waiting, const uint8_t *octets, size_t length)
{
    int is_tried = waiting->state == PN_WRITING || waiting->state == PN_ENDING;
    uint8_t status[4];
    if (!is_tried || !calls_is(octets, length, CALLS_RESPONSE) || calls_sequence(octets) != waiting->sequence)
        return;
    calls_status(octets, status);
    waiting->is_busy = reasons_is_busy(status);
}

void waiting_hear(struct waiting *waiting, const uint8_t *octets, size_t length)
{
    struct arp_packet packet;
    hear_answer(waiting, octets, length);
    if (!waiting->is_asked || !arp_read(octets, length, &packet) || packet.is_request ||
        memcmp(packet.sender_address, waiting->plan->address, 4) != 0)
        return;
    if (memcmp(packet.sender, waiting->device, 6) == 0) {
        waiting->is_answered = 1;
    } else {
        waiting->is_foreign = 1;
        memcpy(waiting->foreign, packet.sender, 6);
    }
}

void waiting_ask(struct waiting *waiting, struct wire *wire)
{
    const pn_plan *plan = waiting->plan;
    int is_about_address = waiting->state == PN_ADDRESSING || waiting->state == PN_CONNECTING;
    uint8_t frame[ARP_FRAME];
    if (!is_about_address || waiting->is_asked || !wire->is_up || arp_is_zero(plan->address) ||
        ticker_now() + SECOND < waiting->since + waiting->pause)
        return;
    waiting->is_asked = 1;
    waiting->is_answered = waiting->is_foreign = 0;
    arp_request(frame, plan->controller_mac, plan->controller_address, plan->address);
    wire_send(wire, frame, sizeof frame);
}

/* Who has answered ARP for the plan's address, after a semicolon. */
static void arp_words(const struct waiting *waiting, char *text, size_t size)
{
    const uint8_t *address = waiting->plan->address;
    char mac[WORDS_MAC];
    text[0] = '\0';
    if (waiting->is_foreign)
        snprintf(text, size, "; another station, %s, answers ARP for %u.%u.%u.%u", words_show_mac(mac, waiting->foreign), address[0], address[1],
                 address[2], address[3]);
    else if (waiting->is_asked)
        snprintf(text, size, waiting->is_answered ? "; it answers ARP for %u.%u.%u.%u" : "; no station answers ARP for %u.%u.%u.%u", address[0],
                 address[1], address[2], address[3]);
}

/* The call of the start-up that has no positive answer yet. */
static void call_words(const struct waiting *waiting, char *text, size_t size)
{
    const pn_plan *plan = waiting->plan;
    uint32_t place = 0, number = waiting->sequence - waiting->tries, count = reasons_written(plan, number, &place);
    char call[128];
    if (waiting->state == PN_ENDING) {
        snprintf(text, size, "PrmEnd");
    } else if (count == 0) {
        snprintf(text, size, "a Write");
    } else {
        reasons_call(plan, number, call, sizeof call);
        snprintf(text, size, "the %s, %u of %u", call, (unsigned)place + 1, (unsigned)plan->record_count);
    }
}

static void answer_words(const struct waiting *waiting, const char *mac, char *text, size_t size)
{
    char call[176];
    call_words(waiting, call, sizeof call);
    if (waiting->is_busy)
        snprintf(text, size, "%s is busy and refuses %s; it is tried again each second", mac, call);
    else
        snprintf(text, size, "no answer to %s", call);
}

static void words_of_state(const struct waiting *waiting, char *text, size_t size)
{
    const pn_plan *plan = waiting->plan;
    char mac[WORDS_MAC], arp[128];
    words_show_mac(mac, waiting->device);
    arp_words(waiting, arp, sizeof arp);
    switch (waiting->state) {
    case PN_LOOKING:
        snprintf(text, size, "no station '%.*s' answers Identify (--list lists the stations, --assign MAC sets this name at a station)",
                 (int)plan->name_length, (const char *)plan->name);
        return;
    case PN_ADDRESSING: snprintf(text, size, "%s answers Identify, but not the Set of its address%s", mac, arp); return;
    case PN_CONNECTING: snprintf(text, size, "%s does not answer the Connect%s", mac, arp); return;
    case PN_WRITING:
    case PN_ENDING: answer_words(waiting, mac, text, size); return;
    default: snprintf(text, size, "%s has not sent ApplicationReady", mac); return;
    }
}

void waiting_words(const struct waiting *waiting, const struct wire *wire, char *text, size_t size)
{
    if (wire->is_up)
        words_of_state(waiting, text, size);
    else
        snprintf(text, size, "the link of %s is down", wire->name);
}

int waiting_line(struct waiting *waiting, const struct wire *wire, char *text, size_t size)
{
    uint64_t passed = ticker_now() - waiting->since;
    char words[WAITING_WORDS];
    if (waiting->state < PN_LOOKING || waiting->state > PN_WAITING || passed < waiting->pause)
        return 0;
    waiting_words(waiting, wire, words, sizeof words);
    snprintf(text, size, "waiting %" PRIu64 " s: %s", passed / SECOND, words);
    waiting->pause *= 2;
    waiting->is_asked = 0;
    return 1;
}
