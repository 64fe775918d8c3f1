#define _GNU_SOURCE
#include "relation.h"
#include "alarms.h"
#include "arp.h"
#include "calls.h"
#include "say.h"
#include "signals.h"
#include "statuses.h"
#include "warnings.h"
#include "words.h"
#include <errno.h>
#include <inttypes.h>
#include <stdio.h>
#include <string.h>
#include <sys/random.h>

/* The FrameID of the cyclic frames that the controller requests from a device. */
#define FRAME_INPUT 0xC001u
/* The shortest time between two reports of a station that uses the controller's address. */
#define CONFLICT_PAUSE (10 * SECOND)
/* The shortest time between two lines about the neighbour. */
#define NEIGHBOUR_PAUSE (10 * SECOND)
/* A Release is repeated each second. After this many the controller waits this long for the answer, and then no more. */
#define RELEASES 3
#define RELEASE_WAITS (SECOND / 2)

static const char *const states[] = {"", "looking", "addressing", "connecting", "writing", "ending", "waiting", "exchanging", "ended"};
static const char *const causes[] = {
    "",
    "the station is of another VendorID or DeviceID than the plan says",
    "the device refused a request",
    "what is plugged in the device is not what the plan expects",
    "no cyclic frame of the device came within the data hold time",
    "the device ended the relation",
    "the device did not acknowledge an alarm's AlarmAck",
    "stopped",
    "no progress within the patience",
};
#define CAUSES (sizeof causes / sizeof causes[0])
/* What is known of a submodule of the plan (enum pn_known). */
static const char *const submodules[] = {"unknown", "there", "differs", "gone", "wrong", "plugged", "ending", "refused"};
#define SUBMODULES (sizeof submodules / sizeof submodules[0])

/* Notes a Release that is sent. */
static void note_release(struct relation *relation, const uint8_t *octets)
{
    relation->release = calls_sequence(octets);
    relation->releases++;
    if (relation->releases >= RELEASES && relation->ends_at != 0)
        relation->ends_at = ticker_now() + RELEASE_WAITS;
}

/* Whether a frame is the answer to the Release: a response of any status, a reject or a fault. */
static int is_released(const struct relation *relation, const uint8_t *octets, size_t length)
{
    struct calls_numbers numbers;
    int is_answer = calls_is(octets, length, CALLS_RESPONSE) || calls_is(octets, length, CALLS_REJECT) || calls_is(octets, length, CALLS_FAULT);
    return is_answer && relation->releases != 0 && calls_sequence(octets) == relation->release && calls_read(octets, length, &numbers) &&
           memcmp(numbers.activity, relation->activity, sizeof numbers.activity) == 0;
}

static int transmit(void *context, const uint8_t *octets, uint32_t length)
{
    struct relation *relation = context;
    if (wire_is_service(octets, length) || wire_is_lldp(octets, length))
        return relation->serves ? wire_send(&relation->loop->wire, octets, length) : 0;
    if (wire_is_cyclic(octets, length)) {
        memcpy(relation->device, octets, sizeof relation->device);
        relation->has_device = 1;
    } else {
        if (calls_is_release(octets, length))
            note_release(relation, octets);
        else
            waiting_sent(&relation->waiting, octets, length);
        duplicate_sent(&relation->duplicate, &relation->loop->wire, octets, length);
    }
    return wire_send(&relation->loop->wire, octets, length);
}

/* Sends the frames of the previous step. The controller repeats a frame that could not be sent, as one that is lost on the wire. */
static void send_all(struct relation *relation)
{
    uint32_t answer = pn_controller_send(&relation->room, &relation->op, &relation->host);
    if (answer != PN_NOT_SENT)
        loop_must(answer, "pn_controller_send");
}

/* --- The start --- */

void relation_open(struct relation *relation, const char *file)
{
    const pn_plan *plan = &relation->plan;
    relation->host = (pn_host){relation, NULL, NULL, transmit};
    relation->file = file;
    station_plan(&relation->plan, file);
    station_warn(&relation->plan, file);
    texts_read(&relation->texts, file);
    memcpy(relation->station, plan->name, plan->name_length);
    strcpy(relation->neighbour, "-");
    strcpy(relation->neighbour_seen, "-");
    station_places(&relation->inputs, plan->modules, plan->module_count, OF_INPUT);
    station_places(&relation->outputs, plan->modules, plan->module_count, OF_OUTPUT);
    relation->interval = (uint64_t)plan->send_clock_factor * plan->reduction_ratio * PN_UNIT_NS;
}

/* A unique number: a UUID of version 4. */
static void make_uuid(uint8_t uuid[16])
{
    if (getrandom(uuid, 16, 0) != 16)
        fail(STATUS_SYSTEM, "the system gives no random numbers: %s", strerror(errno));
    uuid[6] = (uint8_t)((uuid[6] & 0x0F) | 0x40);
    uuid[8] = (uint8_t)((uuid[8] & 0x3F) | 0x80);
}

/* Notes when something is due. Each event may change it. */
static void look_ahead(struct relation *relation)
{
    uint32_t due = 0;
    loop_must(pn_controller_due(&relation->room, &relation->op, &due), "pn_controller_due");
    relation->due_at = due == UINT32_MAX ? UINT64_MAX : relation->units + due;
}

/* Hands in the time before an event. */
static void catch_up(struct relation *relation)
{
    while (relation->units != relation->loop->units) {
        uint64_t more = relation->loop->units - relation->units;
        uint32_t units = more > UINT32_MAX ? UINT32_MAX : (uint32_t)more;
        loop_must(pn_controller_tick(&relation->room, &relation->op, units), "pn_controller_tick");
        relation->units += units - relation->op.units;
        send_all(relation);
    }
}

/* Gives the output of a place to the controller. */
static void put_output(struct relation *relation, const struct place *place)
{
    loop_must(pn_controller_give(&relation->room, &relation->op, place->slot, place->subslot, place->octets, place->length), "pn_controller_give");
    send_all(relation);
}

/* Hands in the status of an output. */
static uint32_t put_status(struct relation *relation, const struct place *place)
{
    uint32_t answer = pn_controller_status(&relation->room, &relation->op, place->slot, place->subslot, !place->is_bad);
    send_all(relation);
    return answer;
}

/* What was said of an output before, for a new controller. */
static void begin_output(struct relation *relation, const struct place *place)
{
    if (place->is_given)
        put_output(relation, place);
    if (place->is_bad)
        loop_must(put_status(relation, place), "pn_controller_status");
}

void relation_make(struct relation *relation, struct loop *loop)
{
    make_uuid(relation->ar);
    make_uuid(relation->activity);
    relation->loop = loop;
    for (unsigned i = 0; i < STATION_PLACES; i++) {
        relation->providers[i] = -1;
        relation->submodules[i] = PN_KNOWN_THERE;
    }
    relation->units = loop->units;
    relation->state = relation->cause = 0;
    relation->has_device = 0;
    relation->last_cyclic = 0;
    relation->ends_at = 0;
    relation->releases = 0;
    relation->conflicts = 0;
    relation->alarms[0] = relation->alarms[1] = -1;
    relation->access.is_waiting = 0;
    relation->is_stopped = relation->is_wanted = 0;
    relation->refused = 0;
    memset(&relation->reasons, 0, sizeof relation->reasons);
    memset(&relation->holders, 0, sizeof relation->holders);
    loop_must(pn_controller_start(&relation->room, &relation->plan, relation->ar, relation->activity), "pn_controller_start");
}

void relation_introduce(struct relation *relation, lines_writer tell)
{
    char mac[WORDS_MAC];
    tell(&relation->loop->lines, "controller %s on %s, for the station '%s', interval %" PRIu64 " us",
               words_show_mac(mac, relation->plan.controller_mac), relation->loop->wire.name, relation->station, relation->interval / 1000);
}

/* The MAC address of the station, or of the one that the controller talks to; `-` before one was found. */
static const char *show_device(const struct relation *relation, char text[WORDS_MAC])
{
    static const uint8_t none[6] = {0};
    const uint8_t *device = relation->has_device ? relation->device : relation->waiting.device;
    return memcmp(device, none, sizeof none) == 0 ? "-" : words_show_mac(text, device);
}

void relation_answer_station(const struct relation *relation)
{
    const uint8_t *address = relation->plan.address;
    char mac[WORDS_MAC], cause[16] = "";
    if (relation->state == PN_ENDED)
        snprintf(cause, sizeof cause, " %u", (unsigned)relation->cause);
    lines_answer(&relation->loop->lines, "station %s %s %u.%u.%u.%u %" PRIu64 " %s%s", relation->station, show_device(relation, mac), address[0], address[1],
                 address[2], address[3], relation->interval / 1000, states[relation->state], cause);
}

void relation_begin(struct relation *relation)
{
    waiting_start(&relation->waiting, &relation->plan);
    duplicate_start(&relation->duplicate, &relation->plan);
    send_all(relation);
    look_ahead(relation);
    for (unsigned i = 0; i < relation->outputs.count; i++)
        begin_output(relation, &relation->outputs.list[i]);
}

/* --- Reports --- */

static void look_at_inputs(struct relation *relation)
{
    for (unsigned i = 0; i < relation->inputs.count; i++) {
        struct place *place = &relation->inputs.list[i];
        char text[STATION_LINE];
        loop_must(pn_controller_value(&relation->room, &relation->op, place->slot, place->subslot), "pn_controller_value");
        if (!station_update(place, relation->op.octets, relation->op.length) || !relation->has_octets)
            continue;
        station_line(text, "input", place);
        lines_tell(&relation->loop->lines, "%s", text);
    }
}

/* Reports what the device says of its inputs, if it says something else than before. */
static void look_at_providers(struct relation *relation)
{
    for (unsigned i = 0; i < relation->inputs.count; i++) {
        const struct place *place = &relation->inputs.list[i];
        uint8_t iops = 0, data_status = 0;
        int now = -1;
        if (pn_controller_provider(&relation->room, &relation->op, place->slot, place->subslot, &iops, &data_status) == PN_OK)
            now = iops | ((data_status & PN_PROVIDER_RUNS) != 0 ? RELATION_RUNS : 0);
        if (now == relation->providers[i])
            continue;
        relation->providers[i] = now;
        if (now >= 0 && relation->has_octets)
            lines_tell(&relation->loop->lines, "provider %u %u %02x %s", place->slot, place->subslot, iops, now >= RELATION_RUNS ? "run" : "stop");
    }
}

/* Reports what is known of a submodule of the plan, if it is something else than before. Without a relation nothing is known of it. */
static void look_at_submodule(struct relation *relation, uint16_t slot, uint16_t subslot, uint32_t *reported)
{
    uint32_t now = PN_KNOWN_THERE;
    if (pn_controller_place(&relation->room, &relation->op, slot, subslot, &now) != PN_OK || now == *reported)
        return;
    *reported = now;
    lines_report(&relation->loop->lines, "submodule %u %u %s", slot, subslot, submodules[now < SUBMODULES ? now : 0]);
}

static void look_at_submodules(struct relation *relation)
{
    uint32_t *reported = relation->submodules;
    for (uint32_t i = 0; i < relation->plan.module_count; i++) {
        const pn_module *module = &relation->plan.modules[i];
        for (uint16_t k = 0; k < module->submodule_count; k++)
            look_at_submodule(relation, module->slot, module->submodules[k].subslot, reported++);
    }
}

/* Whether a submodule runs with default parameters after this alarm, until the relation is started again. */
static int is_left_alone(const struct relation *relation, unsigned type)
{
    return alarms_wants_parameters(type) && !(alarms_is_plug(type) && relation->plan.parameters_after_plug != 0);
}

/* Reports the last alarm of a priority, if it is another one than that reported before. */
static void look_at_alarm(struct relation *relation, int is_low)
{
    pn_op *op = &relation->op;
    struct alarm alarm;
    char text[ALARMS_LONGEST];
    int number;
    if (pn_controller_report(&relation->room, op, is_low) != PN_OK)
        return;
    number = (int)op->sequence;
    if (number == relation->alarms[is_low])
        return;
    relation->alarms[is_low] = number;
    alarm = (struct alarm){.is_low = is_low, .type = op->alarm_type, .slot = op->slot, .subslot = op->subslot, .specifier = op->specifier,
                           .structure = op->structure > 65535 ? -1 : (long)op->structure, .octets = op->octets, .length = op->length};
    alarms_line(&alarm, &relation->texts, text, sizeof text);
    (is_low ? lines_report : lines_tell)(&relation->loop->lines, "%s", text);
    if (is_left_alone(relation, alarm.type))
        lines_tell(&relation->loop->lines, "warning: slot %u subslot %u: it gets its parameters again when the relation is started again: line restart",
                   alarm.slot, alarm.subslot);
}

/* Whether the device refused a record of a list, and the start-up ended by that: then the response itself has no error. */
static int is_of_list(struct relation *relation, uint32_t *place, uint8_t status[4])
{
    uint32_t value = 0;
    if (relation->plan.multiple_write == 0 || pn_controller_refused_record(&relation->room, &relation->op, place, &value) != PN_OK ||
        *place + 1 == relation->refused || *place >= relation->plan.record_count)
        return 0;
    access_spell(status, value);
    return 1;
}

static void tell_end(struct relation *relation)
{
    char why[STATUSES_LONGEST + 192];
    uint8_t status[4];
    uint32_t place = 0;
    const uint8_t *refused = is_of_list(relation, &place, status) ? status : NULL;
    relation->reasons.tries = relation->waiting.tries;
    if (relation->cause == PN_NO_PROGRESS)
        snprintf(why, sizeof why, ": %s", relation->stuck);
    else
        reasons_words(&relation->reasons, &relation->plan, relation->cause, place, refused, why, sizeof why);
    lines_report(&relation->loop->lines, "ended %u: %s%s", (unsigned)relation->cause, causes[relation->cause < CAUSES ? relation->cause : 0], why);
}

void relation_status(const struct relation *relation, char *text, size_t size)
{
    const struct histogram *intervals = &relation->intervals;
    snprintf(text, size, "%s %.*s | %" PRIu64 " frames | interval %" PRIu64 " us, p99 %" PRIu64 ", max %" PRIu64 " | jitter p99 %" PRIu64 " us | lost %" PRIu64,
             states[relation->state], (int)relation->plan.name_length, (const char *)relation->plan.name, relation->cyclic,
             histogram_within(intervals, 500), histogram_within(intervals, 990), (intervals->most + 500) / 1000,
             histogram_within(&relation->jitter, 990), relation->lost);
}

/* Counts a cyclic frame: the time since the previous one, and how many are missing between them by their CycleCounter. */
static void count_cyclic(struct relation *relation, const uint8_t *octets, size_t length)
{
    uint64_t now = ticker_now(), apart = now - relation->last_cyclic, units = relation->interval / PN_UNIT_NS;
    uint16_t counter = (uint16_t)(octets[length - 4] << 8 | octets[length - 3]);
    uint16_t passed = (uint16_t)(counter - relation->last_counter);
    relation->cyclic++;
    if (relation->last_cyclic != 0) {
        histogram_put(&relation->intervals, apart);
        histogram_put(&relation->jitter, apart > relation->interval ? apart - relation->interval : relation->interval - apart);
        if (passed < 0x8000 && passed > units)
            relation->lost += passed / units - 1;
    }
    relation->last_cyclic = now;
    relation->last_counter = counter;
}

/* The number of octets of a cyclic frame of the device, from its destination on. Further octets are padding. */
static size_t cyclic_length(const struct relation *relation, const uint8_t *octets, size_t length)
{
    size_t data = 0, at = wire_frame_id_at(octets, length);
    for (uint32_t i = 0; i < relation->plan.module_count; i++)
        for (uint16_t k = 0; k < relation->plan.modules[i].submodule_count; k++) {
            const pn_submodule *part = &relation->plan.modules[i].submodules[k];
            data += (part->input != 0 || part->output == 0 ? part->input + 1u : 0u) + (part->output != 0 ? 1u : 0u);
        }
    return at + 2 + (data < 40 ? 40 : data) + 4;
}

/* Whether a frame is a complete cyclic frame of the relation, as far as this program can see; only those are counted. */
static int is_of_relation(const struct relation *relation, const uint8_t *octets, size_t length)
{
    return relation->has_device && wire_frame_id(octets, length) == FRAME_INPUT && memcmp(octets, relation->plan.controller_mac, 6) == 0 &&
           memcmp(octets + 6, relation->device, sizeof relation->device) == 0 && cyclic_length(relation, octets, length) <= length;
}

/* A station that answers to the plan's name, beside another one. */
static void look_at_names(struct relation *relation, const uint8_t *octets, size_t length)
{
    const pn_plan *plan = &relation->plan;
    char first[WORDS_MAC], other[WORDS_MAC];
    if (naming_has_name(octets, length, plan->name, plan->name_length) && naming_is_another(&relation->holders, octets))
        lines_tell(&relation->loop->lines, "warning: two stations '%.*s': %s, %s", (int)plan->name_length, (const char *)plan->name,
                   words_show_mac(first, relation->holders.list[0]), words_show_mac(other, octets + 6));
}

/* Reads a frame that is not cyclic, for the messages. */
static void hear(struct relation *relation, const uint8_t *octets, size_t length)
{
    reasons_hear(&relation->reasons, &relation->plan, octets, length);
    look_at_names(relation, octets, length);
}

/* Reports a record that the device refused without an end, once. */
static void look_at_refused(struct relation *relation)
{
    uint8_t status[4];
    char call[96], words[STATUSES_LONGEST + 32];
    const pn_record *record;
    uint32_t place = 0, value = 0;
    if (pn_controller_refused_record(&relation->room, &relation->op, &place, &value) != PN_OK || place + 1 == relation->refused ||
        place >= relation->plan.record_count)
        return;
    relation->refused = place + 1;
    record = &relation->plan.records[place];
    access_spell(status, value);
    reasons_record(&relation->plan, place, call, sizeof call);
    reasons_status(status, words, sizeof words);
    lines_report(&relation->loop->lines, "refused record %u %u %u: %s, %s", record->slot, record->subslot, record->index, call, words);
}

/* --- Events --- */

void relation_tick(struct relation *relation)
{
    catch_up(relation);
    look_ahead(relation);
}

void relation_take(struct relation *relation, const uint8_t *octets, size_t length)
{
    catch_up(relation);
    if (!wire_is_cyclic(octets, length))
        waiting_hear(&relation->waiting, octets, length);
    loop_must(pn_controller_frame(&relation->room, &relation->op, octets, length), "pn_controller_frame");
    send_all(relation);
    look_ahead(relation);
    if (is_of_relation(relation, octets, length))
        count_cyclic(relation, octets, cyclic_length(relation, octets, length));
    if (!wire_is_cyclic(octets, length))
        hear(relation, octets, length);
}

/* Reports another station that uses the controller's address, which an ARP packet has shown. */
static void look_at_conflicts(struct relation *relation, const uint8_t *octets, size_t length)
{
    const uint8_t *address = relation->plan.controller_address;
    struct arp_packet packet;
    char mac[WORDS_MAC];
    uint32_t conflicts = 0;
    loop_must(pn_controller_conflicts(&relation->room, &relation->op, &conflicts), "pn_controller_conflicts");
    if (conflicts == relation->conflicts || !arp_read(octets, length, &packet))
        return;
    relation->conflicts = conflicts;
    if (relation->conflict_told != 0 && ticker_now() < relation->conflict_told + CONFLICT_PAUSE)
        return;
    relation->conflict_told = ticker_now();
    lines_tell(&relation->loop->lines, "warning: another station, %s, uses the controller's address %u.%u.%u.%u (Project.Controller.IPAddress)",
               words_show_mac(mac, packet.sender), address[0], address[1], address[2], address[3]);
}

void relation_serve(struct relation *relation, const uint8_t *octets, size_t length)
{
    catch_up(relation);
    loop_must(pn_controller_frame(&relation->room, &relation->op, octets, length), "pn_controller_frame");
    send_all(relation);
    look_ahead(relation);
    look_at_conflicts(relation, octets, length);
}

void relation_look_at_neighbour(struct relation *relation)
{
    char text[600], mac[WORDS_MAC], port[256], chassis[256];
    pn_neighbour neighbour;
    if (pn_controller_neighbour(&relation->room, &relation->op, &neighbour) == PN_OK)
        snprintf(text, sizeof text, "%s port '%s' of '%s'", words_show_mac(mac, neighbour.mac),
                 words_show_text(port, sizeof port, neighbour.port, neighbour.port_length),
                 words_show_text(chassis, sizeof chassis, neighbour.chassis, neighbour.chassis_length));
    else
        strcpy(text, "-");
    if (strcmp(text, relation->neighbour) == 0) {
        strcpy(relation->neighbour_seen, text);
        return;
    }
    if (relation->neighbour_told != 0 && ticker_now() < relation->neighbour_told + NEIGHBOUR_PAUSE) {
        relation->neighbours_left_out += strcmp(text, relation->neighbour_seen) != 0;
        strcpy(relation->neighbour_seen, text);
        return;
    }
    relation->neighbour_told = ticker_now();
    strcpy(relation->neighbour, text);
    strcpy(relation->neighbour_seen, text);
    lines_report(&relation->loop->lines, "neighbour %s", text);
}

void relation_hear_arp(struct relation *relation, const uint8_t *octets, size_t length)
{
    waiting_hear(&relation->waiting, octets, length);
    duplicate_hear(&relation->duplicate, octets, length);
}

int relation_needs_time(const struct relation *relation)
{
    return relation->serves || !relation_is_over(relation);
}

void relation_look_at_data(struct relation *relation, const uint8_t *octets, size_t length, uint32_t before)
{
    if (wire_is_cyclic(octets, length)) {
        look_at_inputs(relation);
        look_at_providers(relation);
        if (relation->signals != NULL)
            signals_look(relation->signals, relation);
    } else if (before == PN_WRITING && relation->state == PN_WRITING) {
        look_at_refused(relation);
    } else if (before == PN_DATA_EXCHANGE) {
        look_at_alarm(relation, 0);
        look_at_alarm(relation, 1);
        look_at_refused(relation);
        access_look(relation);
    }
    if (!wire_is_cyclic(octets, length))
        look_at_submodules(relation);
    if (before == PN_ENDED && is_released(relation, octets, length))
        relation->ends_at = ticker_now();
}

void relation_stop(struct relation *relation)
{
    catch_up(relation);
    loop_must(pn_controller_stop(&relation->room, &relation->op), "pn_controller_stop");
    send_all(relation);
    look_ahead(relation);
}

int relation_is_changed(struct relation *relation)
{
    loop_must(pn_controller_state(&relation->room, &relation->op), "pn_controller_state");
    if (relation->op.phase == relation->state)
        return 0;
    if (relation->op.phase == PN_ENDED)
        waiting_words(&relation->waiting, &relation->loop->wire, relation->stuck, sizeof relation->stuck);
    relation->state = relation->op.phase;
    relation->cause = relation->op.cause;
    waiting_state(&relation->waiting, relation->state);
    return 1;
}

/* Reports what the device says of modules that are not as the plan expects them, but that it accepts. */
static void tell_differences(struct relation *relation)
{
    struct differences *differences = &relation->reasons.differences;
    char words[DIFFERENCES_LONGEST];
    for (unsigned i = 0; i < differences->count; i++) {
        differences_words(&differences->list[i], &relation->plan, words, sizeof words);
        lines_tell(&relation->loop->lines, "warning: %s", words);
    }
    differences->count = 0;
}

/* Reports another station that uses the address of the station. */
static void tell_duplicate(struct relation *relation)
{
    char text[448];
    if (duplicate_line(&relation->duplicate, text, sizeof text))
        lines_report(&relation->loop->lines, "%s", text);
}

void relation_tell_state(struct relation *relation)
{
    tell_duplicate(relation);
    if (relation->state != PN_ENDED) {
        look_at_refused(relation);
        lines_report(&relation->loop->lines, "state %s", states[relation->state]);
        if (relation->state > PN_CONNECTING)
            tell_differences(relation);
        return;
    }
    tell_end(relation);
    if (relation->signals != NULL)
        signals_end(relation->signals, relation);
    access_drop(relation);
    look_at_inputs(relation);
    /* If the controller has sent a Release it goes on until this is answered, and repeats it. */
    relation->ended_at = ticker_now();
    relation->ends_at = relation->releases == 0 ? relation->ended_at : UINT64_MAX;
}

void relation_tell_waiting(struct relation *relation)
{
    char text[448];
    access_tell_waiting(relation);
    duplicate_ask(&relation->duplicate, &relation->loop->wire);
    tell_duplicate(relation);
    waiting_ask(&relation->waiting, &relation->loop->wire);
    if (waiting_line(&relation->waiting, &relation->loop->wire, text, sizeof text))
        lines_report(&relation->loop->lines, "%s", text);
}

int relation_is_over(const struct relation *relation)
{
    return relation->ends_at != 0 && ticker_now() >= relation->ends_at;
}

/* --- Lines --- */

const char *relation_state(const struct relation *relation)
{
    return states[relation->state];
}

int relation_request(struct relation *relation, const struct access *access, const uint8_t *octets, size_t length)
{
    pn_op *op = &relation->op;
    const char *call = access->is_write ? "pn_controller_write_record" : "pn_controller_read_record";
    uint32_t answer;
    catch_up(relation);
    if (access->is_write)
        answer = pn_controller_write_record(&relation->room, op, access->slot, access->subslot, access->index, octets, length);
    else
        answer = pn_controller_read_record(&relation->room, op, access->slot, access->subslot, access->index);
    if (answer != PN_BUSY)
        loop_must(answer, call);
    send_all(relation);
    look_ahead(relation);
    return answer == PN_OK;
}

int relation_answer(struct relation *relation, struct access_answer *answer)
{
    pn_op *op = &relation->op;
    uint32_t status = 0;
    if (pn_controller_answer(&relation->room, op, &status) != PN_OK)
        return 0;
    access_spell(answer->status, status);
    answer->is_refused = status != 0;
    answer->octets = op->octets;
    answer->length = op->length;
    return 1;
}

void relation_restart(struct relation *relation, char *words[])
{
    (void)words;
    relation->is_wanted = 1;
    if (relation->state != PN_ENDED)
        relation_stop(relation);
}

void relation_tell_cyclic(struct relation *relation, lines_writer tell)
{
    tell(&relation->loop->lines, "cyclic received %" PRIu64 " lost %" PRIu64, relation->cyclic, relation->lost);
}

void relation_tell_times(struct relation *relation, lines_writer tell)
{
    loop_tell_intervals(relation->loop, &relation->intervals, tell);
    tell(&relation->loop->lines, "jitter p50 %" PRIu64 " p99 %" PRIu64 " max %" PRIu64 " us", histogram_within(&relation->jitter, 500),
         histogram_within(&relation->jitter, 990), (relation->jitter.most + 500) / 1000);
}

void relation_show(struct relation *relation)
{
    char text[256];
    relation_status(relation, text, sizeof text);
    lines_answer(&relation->loop->lines, "state %s", states[relation->state]);
    lines_answer(&relation->loop->lines, "status %s", text);
    loop_answer_places(relation->loop, "input", &relation->inputs);
    loop_answer_places(relation->loop, "give", &relation->outputs);
}

void relation_put(struct relation *relation, struct place *place)
{
    place->is_given = 1;
    place->is_changed = 1;
    put_output(relation, place);
}

static void give(struct relation *relation, const struct words_place *given, const uint8_t *octets)
{
    struct place *place = station_place(&relation->outputs, given->slot, given->subslot);
    struct lines *lines = &relation->loop->lines;
    if (place == NULL)
        lines_answer(lines, "wrong: slot %u subslot %u has no output", given->slot, given->subslot);
    else if (place->length != given->length)
        lines_answer(lines, "wrong: the output of slot %u subslot %u has %u octets", given->slot, given->subslot, place->length);
    else {
        memcpy(place->octets, octets, given->length);
        relation_put(relation, place);
        lines_answer(lines, "state %s", states[relation->state]);
        if (relation->signals != NULL)
            signals_look(relation->signals, relation);
    }
}

void relation_give(struct relation *relation, char *words[])
{
    uint8_t octets[STATION_DATA];
    struct words_place given;
    if (words_read_place(words + 1, &given, octets, sizeof octets))
        give(relation, &given, octets);
    else
        lines_answer(&relation->loop->lines, "wrong: give SLOT SUBSLOT HEX");
}

void relation_rate(struct relation *relation, char *words[])
{
    struct lines *lines = &relation->loop->lines;
    struct place *place;
    uint16_t slot, subslot;
    int is_good;
    if (!words_read_status(words + 1, &slot, &subslot, &is_good)) {
        lines_answer(lines, "wrong: status SLOT SUBSLOT good|bad");
        return;
    }
    place = station_place(&relation->outputs, slot, subslot);
    if (place == NULL) {
        lines_answer(lines, "wrong: slot %u subslot %u has no output", slot, subslot);
        return;
    }
    place->is_bad = !is_good;
    loop_must(put_status(relation, place), "pn_controller_status");
    lines_answer(lines, "state %s", states[relation->state]);
    if (relation->signals != NULL)
        signals_look(relation->signals, relation);
}
