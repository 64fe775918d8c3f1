/* nandutable-device: a PROFINET IO device on a network interface, whose settings are in a file. */
#define _GNU_SOURCE
#include "arp.h"
#include "chip.h"
#include "identity.h"
#include "link.h"
#include "loop.h"
#include "modules.h"
#include "options.h"
#include "records.h"
#include "refusal.h"
#include "say.h"
#include "sets.h"
#include "station.h"
#include "streams.h"
#include "words.h"
#include <inttypes.h>
#include <stdio.h>
#include <stdlib.h>
#include <string.h>
#include <time.h>

/* With a period: without a relation nothing is due at a unit of time, and a large number of units may pass at once. */
#define IDLE_MOST 320000u /* units: ten seconds */
/* Another station that uses the device's address is reported at most once in this time. */
#define CONFLICT_PAUSE (10 * SECOND)

struct options {
    struct shared_options shared;
    const char *flash;
    const char *station;
    const char *identity;
    uint8_t mac[6];
    int has_mac;
    uint64_t sets_an_hour;  /* 0: no limit */
    uint32_t sets_at_once;
    int has_limit;          /* it was named */
    uint32_t smallest_interval;
    int inputs_begin_bad;
    int is_ready_by_application;
    int is_without_services;
    int any_controller;
    int keeps_records;
    int has_fixed_numbers;
    int keeps_reads;
    int asks_in_order;
    pn_station records; /* whose records the application answers */
    char **words;       /* of the command line: an option may have several words */
    int count;
};

/* From this many commits that the flash still takes on, the device reports that they are few, and again at each tenth of that. */
#define FEW_COMMITS 100000u

/* A status that was given by a line. */
struct status {
    uint16_t slot;
    uint16_t subslot;
    int is_good;
};

#define STATUSES (PN_MODULES * PN_SUBMODULES)

/* A diagnosis that exists, given by a line. */
struct diagnosis {
    uint16_t slot;
    uint16_t subslot;
    uint16_t channel;
    uint16_t error;
};

#define DIAGNOSES 32
#define REFUSED 7 /* among the notes: what the application said and the device refused */

/* A flash that cannot be written is reported at once, and then this often. */
#define AWAY_PAUSE (60 * SECOND)

/* A flash that cannot be written since a call of it failed: settings are refused, and all else goes on, until the device has started again from
 * the file, which it does when no relation exists and the file can be read and written. */
struct away {
    int is_away;
    uint64_t since;
    uint64_t told;
    uint64_t refused; /* requests since the start of this program */
};

struct device {
    pn_device room;
    pn_device before; /* the device before a frame that may store settings: what it is again if the flash fails */
    struct away away;
    pn_op op;
    pn_host host;
    pn_station station;
    struct loop loop;
    struct chip chip;
    struct places inputs;
    struct places outputs;
    struct sets sets;
    struct status statuses[STATUSES];
    unsigned status_count;
    struct diagnosis diagnoses[DIAGNOSES];
    unsigned diagnosis_count;
    /* The last reported values. */
    pn_watch watch;
    uint32_t starts; /* of the device, by this process */
    uint32_t phase;
    uint32_t progress[PN_PLACES]; /* of each place of the relation */
    int is_lamp_on;
    int is_stopped; /* the controller; -1: it is not known */
    int is_application_stopped;
    uint32_t due;   /* units until something is due, as the last pn_tick said; 0: an event came since, or it did not say */
    int has_told_link; /* whether the link was reported to the device that runs */
    int is_link_up;    /* what was reported */
    int knows_link;
    pn_link link;
    int has_news_of_kernel; /* whether to look for the device's address at the kernel: a Set came, or a relation began */
    int is_kernel_told;     /* that the kernel has the address in `kernel_told` too */
    uint8_t kernel_told[4];
    uint32_t conflicts;     /* of the address, that were seen */
    uint64_t conflict_told; /* when the last one was reported; 0: none yet */
    /* Statistics. */
    uint64_t notes[8];
    struct histogram intervals;
    uint64_t last_cyclic; /* when the last one was sent; 0: none yet */
};

static const char *const notes[] = {"done", "not-mine", "fault", "filter", "old-call", "no-relation", "stale-cycle", "refused"};
static const char *const phases[] = {"none", "started", "awaiting", "exchanging"};
static const char *const progresses[] = {"good", "differs", "plugged", "told", "ended", "refused"};

/* --- The device --- */

static int program(void *context, uint32_t sector, uint32_t place, const uint8_t *octets, uint32_t length)
{
    return chip_program(&((struct device *)context)->chip, sector, place, octets, length);
}

static int erase(void *context, uint32_t sector)
{
    return chip_erase(&((struct device *)context)->chip, sector);
}

static int transmit(void *context, const uint8_t *octets, uint32_t length)
{
    struct device *device = context;
    if (wire_is_cyclic(octets, length)) {
        uint64_t now = ticker_now();
        if (device->last_cyclic != 0)
            histogram_put(&device->intervals, now - device->last_cyclic);
        device->last_cyclic = now;
    }
    return wire_send(&device->loop.wire, octets, length);
}

/* The number of the first relation after a start: another one than that of each relation shortly before, also of an earlier process. The
 * clock has counted further since then, by 100 a second, which is more than a device has relations. */
static uint32_t first_number(struct device *device)
{
    struct timespec now;
    clock_gettime(CLOCK_REALTIME, &now);
    return (uint32_t)((uint64_t)now.tv_sec * 100u + (uint64_t)now.tv_nsec / 10000000u) + 1000u * device->starts++;
}

/* Makes a device in this room from the contents of the chip. Returns PN_OK or PN_FOREIGN. */
static uint32_t make_device(struct device *device, pn_device *room)
{
    uint32_t answer;
    device->station.first_number = first_number(device);
    loop_must(pn_make(room, &device->station), "pn_make");
    answer = pn_boot(room, &device->op, device->chip.sectors[0], device->chip.sectors[1]);
    if (answer != PN_FOREIGN)
        loop_must(answer, "pn_boot");
    return answer;
}

/* What this program remembers of a device that was made before. */
static void forget_device(struct device *device)
{
    device->conflicts = 0;
    device->has_told_link = 0;
    device->watch.asked = 0; /* its questions are counted from 1 again */
}

/* Starts from the contents of the file. */
static void start(struct device *device)
{
    forget_device(device);
    if (chip_settle(&device->chip) != 0)
        fail(STATUS_INPUT, "the flash file '%s' cannot be read and written: %s. Nothing was sent of the step in which it failed; correct this and start again",
             device->chip.path, device->chip.why);
    if (make_device(device, &device->room) == PN_FOREIGN)
        fail(STATUS_DATA, "no device of this kind wrote the contents of the flash file '%s'. It was not changed: name another file, or move it away to start with a new one",
             device->chip.path);
}

static void look(struct device *device, int is_first);
static void look_at_link(void *context);
static int rate(struct device *device, const struct status *status);
static void say_state(struct device *device);
static int diagnose(struct device *device, const struct diagnosis *diagnosis, int appears);
static void tell_dropped(struct device *device);

/* Reports what became of the alarm that a line raised, once its event says so. */
static void tell_confirmation(struct device *device)
{
    const pn_op *op = &device->op;
    uint32_t s = op->status;
    if (op->confirmed == PN_GIVEN_UP)
        lines_tell(&device->loop.lines, "alarm given up");
    else if (op->confirmed == PN_ACKNOWLEDGED && s == 0)
        lines_tell(&device->loop.lines, "alarm acknowledged");
    else if (op->confirmed == PN_ACKNOWLEDGED)
        lines_tell(&device->loop.lines, "alarm refused: PNIOStatus %02X %02X %02X %02X", (unsigned)(s >> 24), (unsigned)(s >> 16 & 0xFF), (unsigned)(s >> 8 & 0xFF),
                   (unsigned)(s & 0xFF));
}

/* After a start during a run: hands in again what the application said, and reports what changed. */
static void go_on(struct device *device)
{
    lines_report(&device->loop.lines, "boot ok");
    look_at_link(device);
    if (device->is_application_stopped)
        say_state(device);
    for (unsigned i = 0; i < device->status_count; i++)
        rate(device, &device->statuses[i]);
    for (unsigned i = 0; i < device->diagnosis_count; i++)
        diagnose(device, &device->diagnoses[i], 1);
    look(device, 0);
}

/* After each event: does the work of its step. It may change what is due, and may confirm an alarm. A flash call that fails counts as lost
 * power: nothing more is sent, and the device starts again from the file. That does not happen to a frame that carry_out_frame knows. */
static void carry_out(struct device *device)
{
    uint32_t answer = pn_carry_out(&device->room, &device->op, &device->host);
    device->due = 0;
    tell_confirmation(device);
    if (answer != PN_FLASH_FAULT)
        return;
    lines_report(&device->loop.lines, "power lost: a call of the flash failed: %s", device->chip.why);
    start(device);
    go_on(device);
}

/* --- A flash that cannot be written --- */

/* Reports it, at once and then each minute. */
static void tell_away(struct device *device)
{
    struct away *away = &device->away;
    uint64_t now = ticker_now();
    if (!away->is_away || (away->told != 0 && now - away->told < AWAY_PAUSE))
        return;
    away->told = now;
    lines_tell(&device->loop.lines, "warning: the flash file '%s' cannot be written since %" PRIu64 " s: %s. Settings are refused (error 5), and all else goes on; the device starts again from the file when it can be read and written and no relation exists",
               device->chip.path, (now - away->since) / SECOND, device->chip.why);
}

/* Starts again from the file, if it can be read and written and a device of this kind wrote it. Only without a relation, which would end. */
static void try_return(struct device *device)
{
    if (!device->away.is_away || device->phase != PN_NONE || chip_return(&device->chip) != 0)
        return;
    if (make_device(device, &device->before) == PN_FOREIGN) {
        device->chip.why = "no device of this kind wrote its contents";
        return;
    }
    memcpy(device->room.room, device->before.room, sizeof device->room.room);
    device->away = (struct away){.refused = device->away.refused};
    device->due = 0;
    forget_device(device);
    lines_report(&device->loop.lines, "power lost: the flash file can be read and written again, and the device starts from it");
    go_on(device);
}

/* Sends the refusal of what a frame of the step answers, and no other frame. */
static void refuse(struct device *device)
{
    uint8_t octets[PN_FRAME_SIZE];
    size_t length;
    memcpy(octets, device->op.data, device->op.length);
    length = refusal_of(octets, device->op.length);
    if (length != 0)
        wire_send(&device->loop.wire, octets, (uint32_t)length);
}

/* Does a piece of work. Returns whether it is a flash call that failed. */
static int is_failed(struct device *device)
{
    const pn_op *op = &device->op;
    if (op->work != PN_PROGRAM && op->work != PN_ERASE)
        return 0;
    if (device->away.is_away)
        return 1;
    return op->work == PN_PROGRAM ? program(device, op->sector, op->place, op->data, op->length) != 0 : erase(device, op->sector) != 0;
}

/* The work of a frame that may store settings; `before` is the device as it was. If a flash call fails, all of the step is refused, and the device
 * is as if the frame had not come: it changes its settings only when the flash has them, and a flash that failed once is not written again until
 * the device has started from it. Returns whether the step stays. */
static int carry_out_frame(struct device *device)
{
    pn_op *op = &device->op;
    int is_refused = 0, was_away = device->away.is_away;
    device->due = 0;
    for (; op->work != PN_NOTHING; op->work = op->more) {
        loop_must(pn_next(&device->room, op), "pn_next");
        is_refused |= is_failed(device);
        if (is_refused && !device->away.is_away)
            device->away = (struct away){.is_away = 1, .since = ticker_now(), .refused = device->away.refused};
        if (op->work == PN_SEND && is_refused)
            refuse(device);
        else if (op->work == PN_SEND)
            transmit(device, op->data, op->length);
    }
    if (!is_refused) {
        tell_confirmation(device);
        return 1;
    }
    memcpy(device->room.room, device->before.room, sizeof device->room.room);
    device->away.refused++;
    tell_away(device);
    if (!was_away)
        try_return(device);
    return 0;
}

/* --- Reports --- */

static void tell_suite(const char *label, const pn_settings *s, char *text, size_t size)
{
    snprintf(text, size, "%s %u.%u.%u.%u %u.%u.%u.%u %u.%u.%u.%u", label, s->address[0], s->address[1], s->address[2], s->address[3], s->mask[0],
             s->mask[1], s->mask[2], s->mask[3], s->gateway[0], s->gateway[1], s->gateway[2], s->gateway[3]);
}

static void tell_name(const char *label, const pn_settings *s, char *text, size_t size)
{
    snprintf(text, size, "%s %.*s", label, s->name_length == 0 ? 1 : (int)s->name_length, s->name_length == 0 ? "-" : (const char *)s->name);
}

/* The kernel answers ARP, and calls, for each of its own addresses, on every interface. Each address is reported once, and again if the kernel
 * did not have it in the meantime. */
static void look_at_kernel(struct device *device)
{
    const pn_settings *settings = &device->watch.settings;
    const char *interface = arp_is_zero(settings->address) ? NULL : wire_with_address(settings->address);
    int is_told = device->is_kernel_told && memcmp(device->kernel_told, settings->address, 4) == 0;
    device->has_news_of_kernel = 0;
    device->is_kernel_told = interface != NULL;
    memcpy(device->kernel_told, settings->address, 4);
    if (interface != NULL && !is_told)
        lines_tell(&device->loop.lines, "warning: the kernel has the device's address %u.%u.%u.%u on %s and answers for it too: remove it (`ip address del`) or assign another to the device",
                   settings->address[0], settings->address[1], settings->address[2], settings->address[3], interface);
}

static void tell_settings(struct device *device, uint32_t news)
{
    const pn_settings *now = &device->watch.settings;
    char text[320];
    if ((news & PN_RESET) != 0)
        lines_report(&device->loop.lines, "reset");
    if ((news & PN_NEW_NAME) != 0) {
        tell_name("name", now, text, sizeof text);
        lines_report(&device->loop.lines, "%s", text);
    }
    if ((news & PN_NEW_ADDRESS) != 0) {
        tell_suite("ip", now, text, sizeof text);
        lines_report(&device->loop.lines, "%s", text);
        look_at_kernel(device);
    }
}

/* Reports the record in the operation. */
static void tell_record(struct device *device)
{
    char label[64], text[320];
    const pn_op *op = &device->op;
    snprintf(label, sizeof label, "record %u %u %u", (unsigned)op->slot, (unsigned)op->subslot, (unsigned)op->index);
    words_labelled(text, sizeof text, label, op->octets, op->length);
    lines_tell(&device->loop.lines, "%s", text);
}

/* Records that the relation keeps, and those that are written while data is exchanged. */
static void tell_records(struct device *device, uint32_t news)
{
    for (uint32_t number = device->watch.first_record; (news & PN_NEW_RECORDS) != 0 && number < device->watch.records; number++) {
        loop_must(pn_taken(&device->room, &device->op, number), "pn_taken");
        tell_record(device);
    }
    for (uint32_t back = device->watch.new_passed; (news & PN_NEW_PASSED) != 0 && back > 0; back--) {
        loop_must(pn_passed(&device->room, &device->op, back - 1), "pn_passed");
        tell_record(device);
    }
}

/* Reports how far the places of the relation are, each whose word changed. As a relation begins none has. */
static void look_at_places(struct device *device, int is_new)
{
    const pn_op *op = &device->op;
    for (uint32_t number = 0; number < PN_PLACES && pn_expected(&device->room, &device->op, number) == PN_OK; number++) {
        if (!is_new && op->progress != device->progress[number])
            lines_report(&device->loop.lines, "submodule %u %u %s", (unsigned)op->slot, (unsigned)op->subslot, progresses[op->progress]);
        device->progress[number] = op->progress;
    }
}

/* Reports what is asked of the application. */
static void tell_asked(struct device *device, lines_writer tell)
{
    static char text[RECORDS_LINE];
    uint32_t answer = pn_asked(&device->room, &device->op);
    if (answer == PN_NOT_ASKED) {
        tell(&device->loop.lines, "asked -");
        return;
    }
    loop_must(answer, "pn_asked");
    records_line(text, &device->op);
    tell(&device->loop.lines, "%s", text);
}

/* What a frame, a pull or a plug changed besides the process data, and at the first time what there is. */
static void look_at_news(struct device *device, int is_first)
{
    uint32_t news = 0;
    loop_must(pn_news(&device->room, &device->op, &device->watch, &news), "pn_news");
    tell_settings(device, is_first ? PN_NEW_NAME | PN_NEW_ADDRESS : news);
    tell_records(device, news);
    if ((news & PN_PARAMETERS_END) != 0)
        lines_tell(&device->loop.lines, "parameters end");
    if ((news & (PN_NEW_PLUGS | PN_NEW_RELATION)) != 0)
        look_at_places(device, (news & PN_NEW_RELATION) != 0);
    if ((news & PN_NEW_ASKED) != 0)
        tell_asked(device, lines_tell);
}

/* Whether the controller runs, by the first output that it sends. */
static void look_at_controller(struct device *device)
{
    for (unsigned i = 0; i < device->outputs.count; i++) {
        const struct place *place = &device->outputs.list[i];
        uint8_t iops, data_status;
        int is_stopped;
        if (pn_provider(&device->room, &device->op, place->slot, place->subslot, &iops, &data_status) != PN_OK)
            continue;
        is_stopped = (data_status & PN_PROVIDER_RUNS) == 0;
        if (is_stopped != device->is_stopped)
            lines_report(&device->loop.lines, "controller %s", is_stopped ? "stop" : "run");
        device->is_stopped = is_stopped;
        return;
    }
}

static void look_at_outputs(struct device *device)
{
    for (unsigned i = 0; i < device->outputs.count; i++) {
        struct place *place = &device->outputs.list[i];
        char text[STATION_LINE];
        uint32_t answer = pn_output(&device->room, &device->op, place->slot, place->subslot);
        if (answer == PN_NO_SLOT) /* it was pulled right now, and no relation has it */
            continue;
        loop_must(answer, "pn_output");
        if (!station_update(place, device->op.octets, device->op.length))
            continue;
        station_line(text, "output", place);
        lines_tell(&device->loop.lines, "%s", text);
    }
}

/* Does the work of what the application said to the device. Returns whether the device accepted it; otherwise `reason` of the operation says
 * why not, and there is no work. */
static int is_accepted(struct device *device, uint32_t answer, const char *call)
{
    if (answer == PN_REFUSED) {
        device->notes[REFUSED]++;
        return 0;
    }
    loop_must(answer, call);
    carry_out(device);
    return 1;
}

/* Sets a kept input for the relation. Returns whether a relation has it. */
static int give(struct device *device, const struct place *place)
{
    return is_accepted(device, pn_input(&device->room, &device->op, place->slot, place->subslot, place->octets, place->length), "pn_input");
}

/* The inputs of a new relation are zeros until they are set. So the earlier values are set again. */
static void give_all(struct device *device)
{
    for (unsigned i = 0; i < device->inputs.count; i++)
        if (device->inputs.list[i].is_given)
            give(device, &device->inputs.list[i]);
}

static void look_at_state(void *context)
{
    struct device *device = context;
    int is_lamp_on;
    loop_must(pn_state(&device->room, &device->op), "pn_state");
    is_lamp_on = device->op.lamp != 0;
    if (is_lamp_on != device->is_lamp_on)
        lines_tell(&device->loop.lines, "lamp %s", is_lamp_on ? "on" : "off");
    device->is_lamp_on = is_lamp_on;
    if (device->op.phase == device->phase)
        return;
    device->phase = device->op.phase;
    lines_report(&device->loop.lines, "phase %s", phases[device->phase]);
    device->last_cyclic = 0;
    if (device->phase <= PN_STARTED)
        device->is_stopped = -1;
    device->has_news_of_kernel |= device->phase == PN_STARTED;
    loop_pace(&device->loop, device->phase == PN_NONE);
    look_at_outputs(device);
}

static void look(struct device *device, int is_first)
{
    look_at_news(device, is_first);
    look_at_state(device);
    look_at_outputs(device);
}

/* Reports another station that uses the device's address, which an ARP packet has shown. */
static void look_at_conflicts(struct device *device, const uint8_t *octets, size_t length)
{
    struct arp_packet packet;
    char mac[WORDS_MAC];
    uint32_t conflicts = 0;
    loop_must(pn_conflicts(&device->room, &device->op, &conflicts), "pn_conflicts");
    if (conflicts == device->conflicts || !arp_read(octets, length, &packet))
        return;
    device->conflicts = conflicts;
    if (device->conflict_told != 0 && ticker_now() < device->conflict_told + CONFLICT_PAUSE)
        return;
    device->conflict_told = ticker_now();
    lines_tell(&device->loop.lines, "warning: another station, %s, uses the device's address %u.%u.%u.%u", words_show_mac(mac, packet.sender),
               packet.sender_address[0], packet.sender_address[1], packet.sender_address[2], packet.sender_address[3]);
}

/* Tells the device of the link, if it changed or the device does not know it yet. */
static void look_at_link(void *context)
{
    struct device *device = context;
    pn_link link = {0, 0, 0};
    int is_up = device->loop.wire.is_up;
    int knows = is_up && link_ask(&device->loop.wire, &link);
    int is_same = is_up == device->is_link_up && knows == device->knows_link && link.support == device->link.support
                  && link.capability == device->link.capability && link.mau_type == device->link.mau_type;
    if (device->has_told_link && is_same)
        return;
    loop_must(pn_tell_link(&device->room, &device->op, is_up, knows ? &link : NULL), "pn_tell_link");
    device->has_told_link = 1;
    device->is_link_up = is_up;
    device->knows_link = knows;
    device->link = link;
}

/* Once a second. Reading the addresses of all interfaces takes time, so not with each Set. */
static void look_around(void *context)
{
    struct device *device = context;
    look_at_link(context);
    tell_dropped(device);
    tell_away(device);
    try_return(device);
    if (device->has_news_of_kernel)
        look_at_kernel(device);
}

/* --- Events --- */

static uint32_t tick(void *context, uint32_t units)
{
    struct device *device = context;
    uint32_t left, due;
    loop_must(pn_tick(&device->room, &device->op, units), "pn_tick");
    left = device->op.units;
    due = device->op.due;
    carry_out(device);
    device->due = due;
    return left;
}

static uint32_t due(void *context)
{
    struct device *device = context;
    if (device->due == 0)
        loop_must(pn_due(&device->room, &device->op, &device->due), "pn_due");
    return device->due;
}

/* How few commits are left: 0 for more than a few, and one more for each tenth; 7 for none. */
static unsigned how_few(uint32_t left)
{
    unsigned few = 0;
    for (uint32_t bound = FEW_COMMITS; bound >= left && bound != 0; bound /= 10)
        few++;
    return few + (left == 0);
}

static void tell_few(struct device *device, uint32_t left)
{
    if (left == 0)
        lines_tell(&device->loop.lines, "warning: the flash takes no more commits: each Set and each Write of an I&M record is refused from now on, and no controller can set the address again. Start with a new flash file, and set the name again");
    else
        lines_tell(&device->loop.lines, "warning: the flash takes %" PRIu32 " more commits; then nothing more is stored. Who sends Sets or Writes of I&M records so often? (--sets-per-hour)", left);
}

/* How many commits the flash still takes. */
static uint32_t commits_left(struct device *device)
{
    uint32_t left = 0;
    loop_must(pn_left(&device->room, &device->op, &left), "pn_left");
    return left;
}

/* Counts what a frame stored, and reports a flash that takes few more commits. `before` is how many it took before the frame. */
static void look_at_wear(struct device *device, uint32_t before)
{
    uint32_t left = commits_left(device);
    if (left >= before)
        return;
    sets_stored(&device->sets, before - left);
    if (how_few(before) != how_few(left))
        tell_few(device, left);
}

/* Reports Sets and Writes beyond the limit, at most once a minute. */
static void tell_dropped(struct device *device)
{
    const struct sets *sets = &device->sets;
    char mac[WORDS_MAC];
    uint64_t count = sets_to_tell(&device->sets, ticker_now());
    if (count != 0)
        lines_tell(&device->loop.lines, "warning: %" PRIu64 " %s dropped, the last one a %s of %s: the flash stores %" PRIu32 " settings at once, and then %" PRIu64 " %s (--sets-per-hour). A start of this program gives room for %" PRIu32 " again",
                   count, count == 1 ? "setting was" : "settings were", sets->is_write ? "Write" : "Set", words_show_mac(mac, sets->sender), sets->at_once,
                   sets->limit % 3600 == 0 ? sets->limit / 3600 : sets->limit, sets->limit % 3600 == 0 ? "a second" : "an hour", sets->at_once);
}

static void take_frame(void *context, const uint8_t *octets, size_t length)
{
    struct device *device = context;
    int is_cyclic = wire_is_cyclic(octets, length), may_store = !is_cyclic && sets_may_store(octets, length, device->station.mac);
    uint32_t note, before;
    if (!sets_let_in(&device->sets, octets, length, device->station.mac, ticker_now())) {
        tell_dropped(device);
        return;
    }
    before = is_cyclic ? 0 : commits_left(device);
    if (may_store)
        memcpy(device->before.room, device->room.room, sizeof device->room.room);
    pn_watch_frame(&device->watch, octets, length);
    loop_must(pn_frame(&device->room, &device->op, octets, length), "pn_frame");
    note = device->op.note;
    if (note < sizeof device->notes / sizeof device->notes[0])
        device->notes[note]++;
    if (!may_store)
        carry_out(device);
    else if (!carry_out_frame(device))
        return;
    if (!is_cyclic)
        look_at_wear(device, before);
    if (note != PN_DONE)
        return;
    if (!is_cyclic) {
        look_at_news(device, 0);
        look_at_conflicts(device, octets, length);
        device->has_news_of_kernel |= sets_is_set(octets, length, device->station.mac);
    }
    look_at_state(device);
    if (is_cyclic) {
        look_at_outputs(device);
        look_at_controller(device);
    }
    if (!is_cyclic && device->phase == PN_STARTED)
        give_all(device);
}

/* --- Lines --- */

static void show(void *context, char *words[])
{
    struct device *device = context;
    pn_settings running, stored;
    uint32_t left = 0;
    char text[320];
    loop_must(pn_running(&device->room, &device->op, &running), "pn_running");
    loop_must(pn_stored(&device->room, &device->op, &stored), "pn_stored");
    loop_must(pn_left(&device->room, &device->op, &left), "pn_left");
    loop_must(pn_state(&device->room, &device->op), "pn_state");
    tell_name("name", &running, text, sizeof text);
    lines_answer(&device->loop.lines, "%s", text);
    tell_suite("ip", &running, text, sizeof text);
    lines_answer(&device->loop.lines, "%s", text);
    tell_name("stored-name", &stored, text, sizeof text);
    lines_answer(&device->loop.lines, "%s", text);
    tell_suite("stored-ip", &stored, text, sizeof text);
    lines_answer(&device->loop.lines, "%s", text);
    lines_answer(&device->loop.lines, "commits-left %" PRIu32, left);
    lines_answer(&device->loop.lines, "phase %s", phases[device->op.phase]);
    lines_answer(&device->loop.lines, "lamp %u", (unsigned)device->op.lamp);
    loop_answer_places(&device->loop, "input", &device->inputs);
    loop_answer_places(&device->loop, "output", &device->outputs);
    (void)words;
}

static void statistics(void *context, lines_writer tell)
{
    struct device *device = context;
    struct lines *lines = &device->loop.lines;
    uint32_t left = 0, conflicts = 0;
    loop_must(pn_left(&device->room, &device->op, &left), "pn_left");
    loop_must(pn_conflicts(&device->room, &device->op, &conflicts), "pn_conflicts");
    loop_tell_frames(&device->loop, tell);
    for (unsigned i = 0; i < sizeof notes / sizeof notes[0]; i++)
        tell(lines, "note %s %" PRIu64, notes[i], device->notes[i]);
    tell(lines, "sets dropped %" PRIu64, device->sets.dropped);
    tell(lines, "writes dropped %" PRIu64, device->sets.writes_dropped);
    tell(lines, "address conflicts %" PRIu32, conflicts);
    tell(lines, "flash programs %" PRIu64 " erases %" PRIu64 " faults %" PRIu64 " commits-left %" PRIu32, device->chip.programs, device->chip.erases,
         device->chip.faults, left);
    tell(lines, "settings refused %" PRIu64, device->away.refused);
    loop_tell_time(&device->loop, tell);
    loop_tell_intervals(&device->loop, &device->intervals, tell);
    tell(lines, "lines lost %" PRIu64, lines_lost(lines));
}

static void take_input(struct device *device, uint16_t slot, uint16_t subslot, const uint8_t *octets, size_t length)
{
    struct place *place = station_place(&device->inputs, slot, subslot);
    if (place == NULL)
        lines_answer(&device->loop.lines, "wrong: slot %u subslot %u has no input", slot, subslot);
    else if (place->length != length)
        lines_answer(&device->loop.lines, "wrong: the input of slot %u subslot %u has %u octets", slot, subslot, place->length);
    else {
        memcpy(place->octets, octets, length);
        place->is_given = 1;
        lines_answer(&device->loop.lines, give(device, place) ? "note done" : "note refused: no relation has it yet; it is kept for the next one");
    }
}

/* Why the device refused an alarm. */
static const char *why_no_alarm(uint32_t reason)
{
    if (reason == PN_WHY_BAD_LENGTH)
        return "an alarm has at most 32 octets";
    return pn_strreason(reason == PN_WHY_NO_RELATION ? PN_WHY_NO_EXCHANGE : reason);
}

static void take_alarm(struct device *device, uint16_t slot, uint16_t subslot, const uint8_t *octets, size_t length)
{
    if (is_accepted(device, pn_alarm(&device->room, &device->op, slot, subslot, octets, length), "pn_alarm"))
        lines_answer(&device->loop.lines, "note done");
    else
        lines_answer(&device->loop.lines, "note refused: %s", why_no_alarm(device->op.reason));
}

/* Hands in a status. Returns whether it is that of a submodule that is plugged. */
static int rate(struct device *device, const struct status *status)
{
    return is_accepted(device, pn_status(&device->room, &device->op, status->slot, status->subslot, status->is_good), "pn_status");
}

/* Keeps a status for the next start of the device. */
static void keep_status(struct device *device, const struct status *status)
{
    unsigned at = 0;
    while (at < device->status_count && (device->statuses[at].slot != status->slot || device->statuses[at].subslot != status->subslot))
        at++;
    if (at == STATUSES)
        return;
    device->statuses[at] = *status;
    if (at == device->status_count)
        device->status_count++;
}

static void take_status(void *context, char *words[])
{
    struct device *device = context;
    struct status status;
    if (!words_read_status(words + 1, &status.slot, &status.subslot, &status.is_good)) {
        lines_answer(&device->loop.lines, "wrong: status SLOT SUBSLOT good|bad");
    } else if (rate(device, &status)) {
        keep_status(device, &status);
        lines_answer(&device->loop.lines, "note done");
    } else {
        lines_answer(&device->loop.lines, "note refused: nothing is plugged in slot %u subslot %u", status.slot, status.subslot);
    }
}

/* Hands in a diagnosis that appears or disappears. Returns whether it is accepted. */
static int diagnose(struct device *device, const struct diagnosis *diagnosis, int appears)
{
    return is_accepted(device, pn_diagnosis(&device->room, &device->op, diagnosis->slot, diagnosis->subslot, diagnosis->channel,
                                            diagnosis->error, appears), "pn_diagnosis");
}

/* The place of a diagnosis among those that exist; their number if it does not. */
static unsigned find_diagnosis(const struct device *device, const struct diagnosis *diagnosis)
{
    unsigned at = 0;
    while (at < device->diagnosis_count && memcmp(&device->diagnoses[at], diagnosis, sizeof *diagnosis) != 0)
        at++;
    return at;
}

/* Keeps a diagnosis for the next start of the device, or keeps it no more. It is one that the device accepted. */
static void keep_diagnosis(struct device *device, const struct diagnosis *diagnosis, int appears)
{
    unsigned at = find_diagnosis(device, diagnosis);
    if (appears && at < DIAGNOSES) {
        device->diagnoses[at] = *diagnosis;
        device->diagnosis_count += at == device->diagnosis_count;
    } else if (!appears && at < device->diagnosis_count) {
        device->diagnosis_count--;
        memmove(&device->diagnoses[at], &device->diagnoses[at + 1], (device->diagnosis_count - at) * sizeof *diagnosis);
    }
}

/* Why the device refused a diagnosis. */
static const char *why_no_diagnosis(uint32_t reason, const struct diagnosis *diagnosis)
{
    if (reason != PN_WHY_BAD_NUMBER)
        return pn_strreason(reason);
    return diagnosis->error == 0 ? "an error is 1 to 65535" : "a channel is 0 to 32767, or 32768 for the submodule itself";
}

static void take_diagnosis(void *context, char *words[])
{
    struct device *device = context;
    uint16_t numbers[4];
    int appears = strcmp(words[5], "appears") == 0;
    struct diagnosis diagnosis;
    if (!words_numbers(words + 1, numbers, 4) || (!appears && strcmp(words[5], "disappears") != 0)) {
        lines_answer(&device->loop.lines, "wrong: diagnosis SLOT SUBSLOT CHANNEL ERROR appears|disappears");
        return;
    }
    diagnosis = (struct diagnosis){numbers[0], numbers[1], numbers[2], numbers[3]};
    if (diagnose(device, &diagnosis, appears)) {
        keep_diagnosis(device, &diagnosis, appears);
        lines_answer(&device->loop.lines, "note done");
    } else {
        lines_answer(&device->loop.lines, "note refused: %s", why_no_diagnosis(device->op.reason, &diagnosis));
    }
}

static void take_ready(void *context, char *words[])
{
    struct device *device = context;
    int is_done = is_accepted(device, pn_ready(&device->room, &device->op), "pn_ready");
    (void)words;
    lines_answer(&device->loop.lines,
                 is_done ? "note done" : "note refused: no relation waits for the application (--ready-by-application, and after `parameters end`)");
    look_at_state(device);
}

/* --- Modules that are pulled and plugged --- */

/* The places of data after a pull or a plug: those that remain keep their data. */
static void place_again(struct places *places, const pn_station *station, enum direction direction)
{
    static struct places before;
    before = *places;
    station_places(places, station->modules, station->module_count, direction);
    for (unsigned i = 0; i < places->count; i++) {
        const struct place *known = station_place(&before, places->list[i].slot, places->list[i].subslot);
        if (known != NULL && known->length == places->list[i].length)
            places->list[i] = *known;
    }
}

/* After a pull or a plug, as the station is now: what it changed for the relation, and the places of data. */
static void look_at_modules(struct device *device)
{
    look_at_news(device, 0);
    look_at_outputs(device);
    place_again(&device->inputs, &device->station, OF_INPUT);
    place_again(&device->outputs, &device->station, OF_OUTPUT);
}

/* The status and the diagnoses of a submodule go with it, those of all submodules of a slot with its module (`is_whole`). */
static void forget(struct device *device, uint16_t slot, uint16_t subslot, int is_whole)
{
    unsigned statuses = 0, diagnoses = 0;
    for (unsigned i = 0; i < device->status_count; i++)
        if (device->statuses[i].slot != slot || (!is_whole && device->statuses[i].subslot != subslot))
            device->statuses[statuses++] = device->statuses[i];
    for (unsigned i = 0; i < device->diagnosis_count; i++)
        if (device->diagnoses[i].slot != slot || (!is_whole && device->diagnoses[i].subslot != subslot))
            device->diagnoses[diagnoses++] = device->diagnoses[i];
    device->status_count = statuses;
    device->diagnosis_count = diagnoses;
}

/* Answers a line of the application. Returns whether the device accepted it. */
static int is_taken(struct device *device, uint32_t answer, const char *call)
{
    int is_done = is_accepted(device, answer, call);
    if (is_done)
        lines_answer(&device->loop.lines, "note done");
    else
        lines_answer(&device->loop.lines, "note refused: %s", pn_strreason(device->op.reason));
    return is_done;
}

static void take_pull(void *context, char *words[])
{
    struct device *device = context;
    uint16_t place[2];
    if (!words_numbers(words + 1, place, 2)) {
        lines_answer(&device->loop.lines, "wrong: pull SLOT SUBSLOT");
    } else if (is_taken(device, pn_pull(&device->room, &device->op, place[0], place[1]), "pn_pull")) {
        modules_pull(&device->station, place[0], place[1]);
        forget(device, place[0], place[1], 0);
        look_at_modules(device);
    }
}

static void take_pull_module(void *context, char *words[])
{
    struct device *device = context;
    uint16_t slot;
    if (!words_numbers(words + 1, &slot, 1)) {
        lines_answer(&device->loop.lines, "wrong: pull SLOT");
    } else if (is_taken(device, pn_pull_module(&device->room, &device->op, slot), "pn_pull_module")) {
        modules_pull_module(&device->station, slot);
        forget(device, slot, 0, 1);
        look_at_modules(device);
    }
}

static void take_plug(void *context, char *words[])
{
    struct device *device = context;
    struct modules_plug plug;
    if (!modules_read_plug(words + 1, &plug)) {
        lines_answer(&device->loop.lines, "wrong: plug SLOT SUBSLOT MODULE SUBMODULE INPUT OUTPUT [INDEX LENGTH]..");
    } else if (plug.submodule.input == STATION_DATA || plug.submodule.output == STATION_DATA) {
        /* The device starts again from the station, which cannot have it. */
        lines_answer(&device->loop.lines, "note refused: a cyclic frame carries at most 1439 octets of a submodule");
    } else if (is_taken(device, pn_plug(&device->room, &device->op, plug.slot, plug.module, &plug.submodule), "pn_plug")) {
        modules_plug(&device->station, &plug);
        look_at_modules(device);
    }
}

static void take_ready_at(void *context, char *words[])
{
    struct device *device = context;
    uint16_t place[2];
    if (!words_numbers(words + 1, place, 2))
        lines_answer(&device->loop.lines, "wrong: ready SLOT SUBSLOT");
    else if (is_taken(device, pn_ready_at(&device->room, &device->op, place[0], place[1]), "pn_ready_at"))
        look_at_news(device, 0);
}

/* A submodule that the relation expects, and how far it is. */
struct expected {
    uint16_t slot;
    uint16_t subslot;
    uint32_t progress;
};

/* Slots and subslots ascending. */
static int compare_expected(const void *one, const void *other)
{
    const struct expected *a = one, *b = other;
    return a->slot != b->slot ? (a->slot > b->slot) - (a->slot < b->slot) : (a->subslot > b->subslot) - (a->subslot < b->subslot);
}

static void take_expected(void *context, char *words[])
{
    struct device *device = context;
    const pn_op *op = &device->op;
    struct expected list[PN_PLACES];
    uint32_t count = 0;
    for (; count < PN_PLACES && pn_expected(&device->room, &device->op, count) == PN_OK; count++)
        list[count] = (struct expected){(uint16_t)op->slot, (uint16_t)op->subslot, op->progress};
    qsort(list, count, sizeof list[0], compare_expected);
    for (uint32_t i = 0; i < count; i++)
        lines_answer(&device->loop.lines, "expected %u %u %s", list[i].slot, list[i].subslot, progresses[list[i].progress]);
    if (count == 0)
        lines_answer(&device->loop.lines, "expected -");
    (void)words;
}

/* --- Records that the application answers --- */

static void take_asked(void *context, char *words[])
{
    tell_asked(context, lines_answer);
    (void)words;
}

static void take_answer(void *context, char *words[])
{
    struct device *device = context;
    struct records_answer given;
    if (!records_read_answer(words + 1, &given))
        lines_answer(&device->loop.lines, "wrong: answer NUMBER [HEX], at most %u octets, - for none", PN_RECORD_SIZE);
    else if (given.has_octets)
        is_taken(device, pn_answer(&device->room, &device->op, given.number, given.octets, given.length), "pn_answer");
    else
        is_taken(device, pn_written(&device->room, &device->op, given.number), "pn_written");
}

static void take_refuse(void *context, char *words[])
{
    struct device *device = context;
    struct records_answer given;
    if (!records_read_refusal(words + 1, &given))
        lines_answer(&device->loop.lines, "wrong: refuse NUMBER ERRORCODE1 ERRORCODE2");
    else
        is_taken(device, pn_refuse(&device->room, &device->op, given.number, given.code1, given.code2), "pn_refuse");
}

/* --- The state of the application --- */

/* Hands in whether the application runs, which the device never refuses. */
static void say_state(struct device *device)
{
    is_accepted(device, pn_provider_state(&device->room, &device->op, !device->is_application_stopped), "pn_provider_state");
}

/* The application stops or runs again. It is kept for the next start of the device, as the device keeps it over relations. */
static void take_application(void *context, char *words[])
{
    struct device *device = context;
    int stops = strcmp(words[1], "stop") == 0;
    if (!stops && strcmp(words[1], "run") != 0) {
        lines_answer(&device->loop.lines, "wrong: application run|stop");
        return;
    }
    device->is_application_stopped = stops;
    say_state(device);
    lines_answer(&device->loop.lines, "note done");
}

/* A line with three arguments: a place and octets. */
static void take_place(void *context, char *words[])
{
    struct device *device = context;
    uint8_t octets[STATION_DATA];
    struct words_place place;
    if (!words_read_place(words + 1, &place, octets, sizeof octets))
        lines_answer(&device->loop.lines, "wrong: %s SLOT SUBSLOT HEX", words[0]);
    else if (strcmp(words[0], "input") == 0)
        take_input(device, place.slot, place.subslot, octets, place.length);
    else
        take_alarm(device, place.slot, place.subslot, octets, place.length);
}

static const struct command commands[] = {
    {"input", 4, take_place, "input SLOT SUBSLOT HEX   sets the input of a submodule"},
    {"alarm", 4, take_place, "alarm SLOT SUBSLOT HEX   raises a process alarm with these octets"},
    {"status", 4, take_status, "status SLOT SUBSLOT good|bad   sets whether a submodule is good: the IOPS of its inputs"},
    {"diagnosis", 6, take_diagnosis, "diagnosis SLOT SUBSLOT CHANNEL ERROR appears|disappears   reports what is wrong at a channel, or no more"},
    {"application", 2, take_application, "application run|stop     the application runs or stops, with all its inputs: bit 4 of DataStatus"},
    {"pull", 3, take_pull, "pull SLOT SUBSLOT         a submodule was pulled; `pull SLOT`: a module, with all its submodules"},
    {"pull", 2, take_pull_module, NULL},
    {"plug", 7, take_plug, "plug SLOT SUBSLOT MODULE SUBMODULE INPUT OUTPUT [INDEX LENGTH]..   a submodule was plugged: ident numbers, octets of data, records"},
    {"plug", 9, take_plug, NULL},
    {"plug", 11, take_plug, NULL},
    {"ready", 1, take_ready, "ready                    the parameters are in use (--ready-by-application)"},
    {"ready", 3, take_ready_at, "ready SLOT SUBSLOT        those of the submodule that was plugged there are"},
    {"expected", 1, take_expected, "expected                 the submodules that the relation expects, and how far each is after a pull or a plug"},
    {"asked", 1, take_asked, "asked                    what is asked of the application, for the number of an answer (--record)"},
    {"answer", 3, take_answer, "answer NUMBER HEX        the octets of the record that a Read asks for; `answer NUMBER`: a Write is done"},
    {"answer", 2, take_answer, NULL},
    {"refuse", 4, take_refuse, "refuse NUMBER ERRORCODE1 ERRORCODE2   refuses what is asked; ErrorCode1 is 160 to 175"},
    {"show", 1, show, "show                     name, address, remaining commits, phase, lamp, inputs and outputs"},
    {"statistics", 1, NULL, "statistics               counts since the start"},
    {"quit", 1, NULL, "quit                     ends the program"},
    {NULL, 0, NULL, NULL}};

/* --- The program --- */

static void usage(void)
{
    puts("Usage: nandutable-device IFACE --flash FILE [OPTION ..]\n"
         "\n"
         "A PROFINET IO device on the network interface IFACE. Its name, address and I&M\n"
         "texts are in the flash file, and survive a power failure at any moment.\n"
         "\n"
         "What the device is:\n"
         "  --flash FILE          the flash: 8,192 octets; made if it does not exist. Only\n"
         "                        one process may use a file\n"
         "  --station FILE        a catalogue in JSON with the keys of GSDML: VendorID,\n"
         "                        DeviceID, type of station and modules. Default: the demo\n"
         "                        station, with two octets of input in slot 1 and two of\n"
         "                        output in slot 2, as in host/demo/pump.json (installed:\n"
         "                        share/doc/nandutable/pump.json)\n"
         "  --identity FILE       lines `Key = value`: OrderID, serial number and\n"
         "                        revisions (I&M0), VendorID, DeviceID, type of station,\n"
         "                        MAC. A key that is absent has the value of the\n"
         "                        catalogue, or of the demo station. Example:\n"
         "                        host/demo/pump.identity (installed:\n"
         "                        share/doc/nandutable/pump.identity)\n"
         "  --mac MAC             the device's MAC address (default: that of the identity\n"
         "                        file, else the interface's)\n"
         "  --record SLOT SUBSLOT INDEX LENGTH read|write|both\n"
         "                        a record that the application answers: up to LENGTH\n"
         "                        octets, at most 1308. INDEX is decimal, or 0x and hex\n"
         "                        digits, at most 32767. Up to 16 of them. Each Read or\n"
         "                        Write of such a record is a line `asked`, which is\n"
         "                        answered within two seconds by `answer` or `refuse`\n");
    puts("What it accepts:\n"
         "  --smallest-interval N refuses a relation with a shorter interval, in units of\n"
         "                        31.25 microseconds, 1 to 65536 (default: 32, 1 ms)\n"
         "  --inputs-begin-bad    the IOPS of an input is bad until its first `input` in a\n"
         "                        relation\n"
         "  --ready-by-application\n"
         "                        the device is ready at the line `ready` after\n"
         "                        `parameters end`, and not by itself\n"
         "  --any-controller      accepts a Connect for another controller than its\n"
         "                        sender, and calls of any station keep a relation that\n"
         "                        does not exchange data yet: for controllers whose calls\n"
         "                        pass a router\n"
         "  --keep-records        keeps the parameter records that are written while data\n"
         "                        is exchanged too: the 65th record of a relation is\n"
         "                        refused\n"
         "  --fixed-numbers       the FrameID of outputs, if the controller leaves it to\n"
         "                        the device, and the endpoint of alarms are the same in\n"
         "                        each relation: a late frame of an earlier relation may\n"
         "                        count in the next one\n"
         "  --keep-reads          stores the answers to Read Implicit too: four stations\n"
         "                        that call it take the places of the controller, and a\n"
         "                        repeated call of it is executed again\n"
         "  --ask-in-order        refuses a call of the controller for a record of the\n"
         "                        application as busy while a Read Implicit for one\n"
         "                        waits for its answer\n"
         "  --no-services         the device alone: no answer to ping, to lookups of the\n"
         "                        endpoint mapper and to calls to other interfaces, no\n"
         "                        announcement of the address, and no LLDP\n"
         "  --sets-per-hour N     stores 256 settings at once, and then N an hour, 1 to\n"
         "                        1000000: drops the DCP Sets and the Writes of I&M\n"
         "                        records beyond that, and says so; 0: no limit (default:\n"
         "                        3, with which the flash lasts for years, whoever sends\n"
         "                        Sets)\n"
         "  --sets-per-second N   stores at most N settings a second, 1 to 1000000, in\n"
         "                        place of that\n");
    puts("How it runs:\n"
         "  --socket PATH         lines go in and out over this unix socket, and not over\n"
         "                        the standard streams; states, ends and warnings also go\n"
         "                        to standard error\n"
         "  --socket-group GROUP  the members of this group may use the socket too, not\n"
         "                        only its owner\n"
         "  --period US           hands in time in this period during a relation, 31 to\n"
         "                        10000 microseconds, and not only when something is due;\n"
         "                        choose at most the controller's interval\n"
         "  --realtime N          runs with this priority, 1 to 99, of the first-in\n"
         "                        first-out scheduler\n"
         "  --help, --version\n");
    puts("It needs the capability CAP_NET_RAW: run it as root, or run once\n"
         "  setcap cap_net_raw+ep nandutable-device\n"
         "\n"
         "Examples:\n"
         "  nandutable-device eth1 --flash /var/lib/nandutable/pump.flash\n"
         "  nandutable-device eth1 --flash pump.flash --station pump.json \\\n"
         "      --identity pump.identity --socket /run/pump --realtime 50\n"
         "\n"
         "Lines that it accepts; `help` says what each does:\n"
         "  input SLOT SUBSLOT HEX             status SLOT SUBSLOT good|bad\n"
         "  alarm SLOT SUBSLOT HEX             application run|stop\n"
         "  diagnosis SLOT SUBSLOT CHANNEL ERROR appears|disappears\n"
         "  pull SLOT [SUBSLOT]                ready [SLOT SUBSLOT]\n"
         "  plug SLOT SUBSLOT MODULE SUBMODULE INPUT OUTPUT [INDEX LENGTH] ..\n"
         "  asked                              answer NUMBER [HEX]\n"
         "  refuse NUMBER ERRORCODE1 ERRORCODE2\n"
         "  expected   show   statistics   help   quit\n"
         "On SIGUSR1 it prints its statistics; SIGTERM ends it.");
}

static void take_mac(struct options *options, const char *word)
{
    if (!words_mac(word, options->mac) || options->mac[0] % 2 != 0)
        options_misused("--mac takes six octets in hex between colons, the first one even: ", word);
    options->has_mac = 1;
}

/* One of the two options says how many settings are stored. */
static void limit(struct options *options, uint64_t an_hour, uint32_t at_once)
{
    if (options->has_limit)
        options_misused("name one limit of settings, --sets-per-hour or --sets-per-second", "");
    options->has_limit = 1;
    options->sets_an_hour = an_hour;
    options->sets_at_once = at_once;
}

static void take_limit(struct options *options, const char *word)
{
    unsigned long number;
    if (!words_number(word, SETS_MOST, &number) || number < 1)
        options_misused("--sets-per-second takes 1 to 1000000: ", word);
    limit(options, (uint64_t)number * 3600, (uint32_t)number);
}

static void take_slow_limit(struct options *options, const char *word)
{
    unsigned long number;
    if (!words_number(word, SETS_MOST, &number))
        options_misused("--sets-per-hour takes 0 to 1000000, 0 for no limit: ", word);
    limit(options, number, SETS_AT_ONCE);
}

static void take_interval(struct options *options, const char *word)
{
    unsigned long number;
    if (!words_number(word, 65536, &number) || number < 1)
        options_misused("--smallest-interval takes 1 to 65536 units of 31.25 microseconds: ", word);
    options->smallest_interval = (uint32_t)number;
}

/* `--record` and five words: getopt knows of one argument; the four after it are read here. */
static void take_record(struct options *options, char *word)
{
    char *words[5] = {word};
    pn_asked_record record;
    const char *why;
    if (optind + 4 > options->count)
        options_misused("--record takes " RECORDS_FORM ": ", word);
    for (int i = 1; i < 5; i++)
        words[i] = options->words[optind++];
    if (!records_read(words, &record))
        options_misused("--record takes " RECORDS_FORM ", INDEX at most 32767 and LENGTH from 1 to 1308", "");
    why = records_add(&options->records, &record);
    if (why != NULL)
        options_misused("--record: ", why);
}

static int take_option(void *context, int option, const char *word)
{
    struct options *options = context;
    switch (option) {
    case 'q': take_record(options, optarg); return 1;
    case 'n': take_interval(options, word); return 1;
    case 'b': options->inputs_begin_bad = 1; return 1;
    case 'a': options->is_ready_by_application = 1; return 1;
    case 'w': options->is_without_services = 1; return 1;
    case 'y': options->any_controller = 1; return 1;
    case 'k': options->keeps_records = 1; return 1;
    case 'x': options->has_fixed_numbers = 1; return 1;
    case 'j': options->keeps_reads = 1; return 1;
    case 'd': options->asks_in_order = 1; return 1;
    case 'f': options->flash = word; return 1;
    case 's': options->station = word; return 1;
    case 'i': options->identity = word; return 1;
    case 'm': take_mac(options, word); return 1;
    case 'l': take_limit(options, word); return 1;
    case 'o': take_slow_limit(options, word); return 1;
    default: return 0;
    }
}

static const struct option known[] = {{"flash", required_argument, NULL, 'f'},
                                      {"station", required_argument, NULL, 's'},
                                      {"identity", required_argument, NULL, 'i'},
                                      {"mac", required_argument, NULL, 'm'},
                                      {"sets-per-second", required_argument, NULL, 'l'},
                                      {"sets-per-hour", required_argument, NULL, 'o'},
                                      {"smallest-interval", required_argument, NULL, 'n'},
                                      {"inputs-begin-bad", no_argument, NULL, 'b'},
                                      {"ready-by-application", no_argument, NULL, 'a'},
                                      {"no-services", no_argument, NULL, 'w'},
                                      {"any-controller", no_argument, NULL, 'y'},
                                      {"keep-records", no_argument, NULL, 'k'},
                                      {"fixed-numbers", no_argument, NULL, 'x'},
                                      {"keep-reads", no_argument, NULL, 'j'},
                                      {"ask-in-order", no_argument, NULL, 'd'},
                                      {"record", required_argument, NULL, 'q'},
                                      SHARED_OPTIONS};

/* Checks only the flash file's name, before any message is printed: a message could go into that file. */
static void keep_flash_apart(int count, char *words[])
{
    int option;
    opterr = 0;
    while ((option = getopt_long(count, words, "-h", known, NULL)) != -1) /* in their order */
        if (option == 'f')
            chip_keep_apart(optarg);
    optind = 0; /* from the first argument again */
}

static void read_words(struct options *options, int count, char *words[])
{
    const struct command_line line = {known, usage, take_option};
    int first;
    memset(options, 0, sizeof *options);
    options->smallest_interval = 32;
    options->sets_an_hour = SETS_AN_HOUR;
    options->sets_at_once = SETS_AT_ONCE;
    options->words = words;
    options->count = count;
    first = options_read(&line, &options->shared, options, count, words);
    if (first + 1 != count)
        options_misused(first == count ? "name a network interface" : "a device has only one interface", "");
    options->shared.interface = words[first];
    if (options->flash == NULL)
        options_misused("name a flash file with --flash", "");
    if (options->shared.socket_group != NULL && options->shared.socket == NULL)
        options_misused("--socket-group takes --socket", "");
}

/* Reads what the device is. Returns whether its MAC address is given. */
static int read_station(struct device *device, const struct options *options)
{
    static pn_plan plan;
    int has_mac = options->has_mac;
    station_demo(&device->station);
    if (options->station != NULL) {
        station_plan(&plan, options->station);
        if (plan.station_type_length > 25)
            fail(STATUS_DATA, "'%s': DNS_CompatibleName has more than 25 letters", options->station);
        pn_plan_station(&plan, &device->station);
    }
    if (options->identity != NULL && identity_read(&device->station, options->identity, options->station))
        has_mac = 1;
    if (options->has_mac)
        memcpy(device->station.mac, options->mac, 6);
    device->station.smallest_interval = options->smallest_interval;
    device->station.inputs_begin_bad = options->inputs_begin_bad != 0;
    device->station.ready_by_application = options->is_ready_by_application != 0;
    device->station.only_own_controller = options->any_controller == 0;
    device->station.records_passed_on = options->keeps_records == 0;
    device->station.numbers_go_round = options->has_fixed_numbers == 0;
    device->station.reads_not_kept = options->keeps_reads == 0;
    device->station.asks_own_first = options->asks_in_order == 0;
    device->station.without_services = options->is_without_services != 0;
    device->station.record_count = options->records.record_count;
    memcpy(device->station.records, options->records.records, sizeof device->station.records);
    station_places(&device->inputs, device->station.modules, device->station.module_count, OF_INPUT);
    station_places(&device->outputs, device->station.modules, device->station.module_count, OF_OUTPUT);
    return has_mac;
}

static void open_all(struct device *device, const struct options *options)
{
    int has_mac = read_station(device, options);
    device->host = (pn_host){device, program, erase, transmit};
    device->loop.period = options->shared.period;
    sets_limit(&device->sets, options->sets_an_hour, options->sets_at_once, ticker_now());
    wire_open(&device->loop.wire, options->shared.interface);
    if (!has_mac)
        memcpy(device->station.mac, device->loop.wire.hardware, 6);
    wire_take(&device->loop.wire, device->station.mac);
    wire_join_identify(&device->loop.wire);
    if (!device->station.without_services)
        wire_join_nearest(&device->loop.wire);
    chip_open(&device->chip, options->flash);
    loop_open(&device->loop, &options->shared);
}

static int is_over(void *context)
{
    return ((const struct device *)context)->loop.wake.is_ended;
}

static const struct events events = {.idle_most = IDLE_MOST,
                                     .look_each = SECOND,
                                     .is_over = is_over,
                                     .tick = tick,
                                     .due = due,
                                     .look = look_at_state,
                                     .take_frame = take_frame,
                                     .commands = commands,
                                     .statistics = statistics,
                                     .look_around = look_around};

static void begin(struct device *device)
{
    const uint8_t *mac = device->station.mac;
    device->is_stopped = -1;
    start(device);
    loop_start(&device->loop, &events, device);
    lines_report(&device->loop.lines, "boot ok");
    lines_report(&device->loop.lines, "device %02x:%02x:%02x:%02x:%02x:%02x on %s, %s '%s'", mac[0], mac[1], mac[2], mac[3], mac[4], mac[5], device->loop.wire.name,
               device->chip.is_new ? "a new flash file" : "the flash file", device->chip.path);
    loop_tell_link(&device->loop);
    look_at_link(device);
    look(device, 1);
    if (how_few(commits_left(device)) != 0)
        tell_few(device, commits_left(device));
}

int main(int count, char *words[])
{
    static struct device device;
    struct options options;
    streams_secure();
    say_as("nandutable-device");
    keep_flash_apart(count, words);
    read_words(&options, count, words);
    open_all(&device, &options);
    begin(&device);
    loop_run(&device.loop);
    lines_report(&device.loop.lines, "ended");
    lines_close(&device.loop.lines);
    return 0;
}
