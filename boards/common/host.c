#include "host.h"
#include "application.h"
#include "board.h"
#include "chip.h"
#include "clock.h"
#include "console.h"
#include "lan9118.h"
#include "meter.h"
#include "plant.h"

/* Frames that one turn of the loop reads: a flood delays neither the time nor the watchdog. */
#define FRAMES_AT_ONCE 16u
/* The application is called each millisecond, in units, or a little earlier with the newest outputs. */
#define STEP 32u
#define EARLIEST_STEP 24u
/* How often the state of the relation is asked, in units. That it ended is seen in each step: then no output is good. */
#define LOOK_PERIOD 320u
/* How often the link is looked at, in units: twice a second. */
#define LINK_PERIOD 16000u

/* What has large locals is no part of the functions around it: they would keep the stack for it while the library runs. */
#define APART __attribute__((noinline))

static pn_device device;
static pn_op op;
static pn_watch watch;

/* A frame is read while the device runs, a sector of the chip only while it starts. */
static union {
    uint32_t frame[LAN9118_ROOM / 4];
    uint8_t sector[PN_SECTOR_SIZE];
} room;

/* What each turn uses is in one structure: then one register has the address of all of it. */
static struct {
    uint32_t waited;   /* units that passed and were not handed in yet */
    uint32_t due;      /* units until something is due, or fewer, from the last ones that were handed in */
    uint32_t step_age; /* units since the application was called */
    uint32_t phase;    /* of the relation */
    uint32_t look_age; /* units since the state of the relation was asked */
    uint32_t link_age; /* units since the link was looked at */
    int has_outputs;   /* a cyclic frame came since the application was called */
    int is_silent;     /* frames are not sent: the answer to the button's reset */
} own;

static struct lan9118_link link;
static struct host_counts counts;

/* A number that this host does not expect is an error of this program. The processor starts again. */
static _Noreturn void fail(const char *call, uint32_t answer)
{
    console_say(call);
    console_say(": ");
    console_say(pn_strerror(answer));
    console_say("\n");
    board_reset();
}

static void must(uint32_t answer, const char *call)
{
    if (answer != PN_OK)
        fail(call, answer);
}

/* --- The work of the device --- */

static int program(void *context, uint32_t sector, uint32_t place, const uint8_t *octets, uint32_t length)
{
    (void)context;
    counts.programs++;
    return chip_program(sector, place, octets, length);
}

static int erase(void *context, uint32_t sector)
{
    (void)context;
    counts.erases++;
    return chip_erase(sector);
}

static int transmit(void *context, const uint8_t *octets, uint32_t length)
{
    (void)context;
    return own.is_silent ? 0 : lan9118_send(octets, length);
}

static const pn_host host = {NULL, program, erase, transmit};

/* --- A start --- */

/* What is due, after an event that may have changed it. */
APART static void ask_due(void)
{
    must(pn_due(&device, &op, &own.due), "pn_due");
}

/* What changed since the last call. */
APART static uint32_t news(void)
{
    uint32_t changed;
    must(pn_news(&device, &op, &watch, &changed), "pn_news");
    return changed;
}

/* Hands a sector of the chip to the device, which copies it. pn_boot does the same with both sectors, and so needs room for both. */
static void give_sector(uint32_t sector)
{
    if (chip_read(sector, room.sector) != 0)
        fail("chip_read", PN_FLASH_FAULT);
    op.sector = sector;
    must(pn_ask(&device, &op, PN_OP_SECTOR, room.sector, PN_SECTOR_SIZE), "pn_boot");
}

/* No device of this kind wrote what the chip contains: a person decides whether it is erased. */
static void ask_whether_to_erase(void)
{
    console_say("the chip has foreign contents: the button erases it\n");
    while (!plant_button()) {
        plant_step();
        console_step();
        watchdog_feed();
    }
    if (chip_erase(0) != 0 || chip_erase(1) != 0)
        fail("chip_erase", PN_FLASH_FAULT);
}

/* From the contents of the chip, at first and after a flash call that failed. What the host remembers of the device before it is old. */
static void start(void)
{
    uint32_t answer;
    must(pn_make(&device, &application_station), "pn_make");
    for (;;) {
        give_sector(0);
        give_sector(1);
        answer = pn_ask(&device, &op, PN_OP_BOOT, NULL, 0);
        if (answer != PN_FOREIGN)
            break;
        ask_whether_to_erase();
    }
    must(answer, "pn_boot");
    memset(&watch, 0, sizeof watch);
    (void)news();
    own.phase = PN_NONE;
    ask_due();
    own.link_age = LINK_PERIOD;
    link.is_up = -1;
    console_say("boot ok name ");
    for (uint32_t i = 0; i < watch.settings.name_length; i++)
        console_put((char)watch.settings.name[i]);
    console_say(watch.settings.name_length == 0 ? "-\n" : "\n");
    application_starts();
}

/* After each event with work, before the next one. A frame that the card does not take is lost, as it could be on the wire. */
static void carry_out(void)
{
    uint32_t answer = pn_carry_out(&device, &op, &host);
    if (answer == PN_FLASH_FAULT) {
        console_say("power lost: a call of the flash failed\n");
        counts.losses++;
        start();
    } else if (answer != PN_NOT_SENT)
        must(answer, "pn_carry_out");
}

/* --- For the application --- */

static int is_done(uint32_t answer, const char *call)
{
    if (answer == PN_REFUSED)
        return 0;
    must(answer, call);
    carry_out();
    ask_due();
    return 1;
}

/* An input makes nothing due, and no work. */
int host_input(uint16_t slot, uint16_t subslot, const uint8_t *octets, uint32_t length)
{
    uint32_t answer;
    if (own.phase == PN_NONE)
        return 0;
    answer = pn_input(&device, &op, slot, subslot, octets, length);
    if (answer == PN_REFUSED)
        return 0;
    must(answer, "pn_input");
    return 1;
}

const uint8_t *host_output(uint16_t slot, uint16_t subslot, uint32_t length)
{
    uint8_t iops, data_status;
    if (own.phase != PN_EXCHANGING || pn_received(&device, &op, slot, subslot, &iops, &data_status) != PN_OK || iops != PN_IOPS_GOOD
        || (data_status & PN_PROVIDER_RUNS) == 0 || op.length != length)
        return NULL;
    return op.octets;
}

int host_status(uint16_t slot, uint16_t subslot, int is_good)
{
    return is_done(pn_status(&device, &op, slot, subslot, is_good), "pn_status");
}

int host_diagnosis(uint16_t slot, uint16_t subslot, uint16_t channel, uint16_t error, int appears)
{
    return is_done(pn_diagnosis(&device, &op, slot, subslot, channel, error, appears), "pn_diagnosis");
}

int host_alarm(uint16_t slot, uint16_t subslot, const uint8_t *octets, uint32_t length)
{
    return own.phase == PN_EXCHANGING && is_done(pn_alarm(&device, &op, slot, subslot, octets, length), "pn_alarm");
}

int host_ready(void)
{
    return is_done(pn_ready(&device, &op), "pn_ready");
}

struct host_counts host_counts(void)
{
    return counts;
}

/* --- Events --- */

/* Hands parameter records to the application: those of the relation, and those that are written while data is exchanged. */
static void take_records(uint32_t changed)
{
    for (uint32_t number = watch.first_record; (changed & PN_NEW_RECORDS) != 0 && number < watch.records; number++)
        if (pn_taken(&device, &op, number) == PN_OK)
            application_record(op.slot, op.subslot, op.index, op.octets, op.length);
    for (uint32_t back = watch.new_passed; (changed & PN_NEW_PASSED) != 0 && back > 0; back--)
        if (pn_passed(&device, &op, back - 1) == PN_OK)
            application_record(op.slot, op.subslot, op.index, op.octets, op.length);
}

/* What an event changed beside the process data. */
APART static void look(void)
{
    uint32_t changed = news();
    own.phase = watch.phase;
    if ((changed & (PN_NEW_PHASE | PN_NEW_RELATION)) != 0 && own.phase <= PN_STARTED)
        application_relation_ends();
    take_records(changed);
    if ((changed & PN_PARAMETERS_END) != 0)
        application_parameters_end();
    if ((changed & PN_RESET) != 0)
        application_was_reset();
}

/* What became of the open alarm in the last event, if it is over. */
APART static void tell_confirmation(void)
{
    if (op.confirmed == PN_ACKNOWLEDGED)
        application_alarm_is_acknowledged(op.status);
    else if (op.confirmed == PN_GIVEN_UP)
        application_alarm_is_given_up();
}

/* Hands in units of time. pn_tick stops after a unit that sends: the rest waits, and is handed in before the next event. */
static void pass(uint32_t units)
{
    must(pn_tick(&device, &op, units), "pn_tick");
    own.waited -= units - op.units;
    own.due = op.due;
    if (op.confirmed != PN_UNCONFIRMED)
        tell_confirmation();
    if (op.work != PN_NOTHING)
        carry_out();
}

/* FrameID 0x8000 to 0xF7FF, with a VLAN tag or without. A word of the frame has its first octet lowest. */
static int is_cyclic(const uint32_t *frame, size_t length)
{
    uint32_t type = (frame[3] & 0xFFFFu) == 0x0081u ? frame[4] : frame[3];
    return length >= 20 && (type & 0x0080FFFFu) == 0x00809288u && (type & 0x00780000u) != 0x00780000u;
}

/* A frame that is not accepted cyclic data may change what is due, and what the host knows of the device. */
APART static void follow_frame(void)
{
    int is_of_interest = op.note == PN_DONE || watch.is_asked != 0;
    tell_confirmation();
    carry_out();
    ask_due();
    if (is_of_interest)
        look();
}

/* A frame, and before it the units that passed and with which nothing is due: so the timers that it starts begin with its own time. A cyclic frame
 * that is accepted only puts off what is due. */
static void take_frame(size_t length)
{
    const uint8_t *octets = (const uint8_t *)room.frame;
    int is_data = is_cyclic(room.frame, length);
    uint32_t quiet = own.due - 1 < own.waited ? own.due - 1 : own.waited;
    if (!is_data)
        pn_watch_frame(&watch, octets, length);
    must(pn_frame_after(&device, &op, quiet, octets, length), "pn_frame_after");
    own.waited -= quiet - op.units;
    own.due -= quiet - op.units;
    own.has_outputs |= is_data;
    if (!is_data || op.note != PN_DONE || op.work != PN_NOTHING)
        follow_frame();
}

static void take_frames(void)
{
    size_t length;
    for (uint32_t i = 0; i < FRAMES_AT_ONCE && (length = lan9118_receive(room.frame)) != 0; i++) {
        meter_begin(METER_FRAME);
        take_frame(length);
        meter_end(METER_FRAME);
    }
}

/* A FactoryReset from the button: the device gets the frame that a tool would send, and its answer goes nowhere. So a reset is stored like any
 * other command: power may fail in it. */
int host_reset(void)
{
    static const uint8_t reset[] = {0x02, 0, 0, 0, 0xFF, 0xFF, 0x88, 0x92, 0xFE, 0xFD, 4, 0, 0, 0, 0, 0, 0, 0, 0, 6, 5, 5, 0, 2, 0, 0};
    uint8_t *frame = (uint8_t *)room.frame;
    uint32_t losses = counts.losses;
    memset(frame, 0, 60);
    memcpy(frame, application_station.mac, 6);
    memcpy(frame + 6, reset, sizeof reset);
    own.is_silent = 1;
    take_frame(60);
    own.is_silent = 0;
    return counts.losses == losses;
}

/* The time that passed, once something is due. After a stall the rest is dropped, else repeats would go out at once. */
static void take_time(void)
{
    uint32_t most = own.due + PN_MOST_DEBT;
    if (own.waited > most) {
        counts.forgotten += own.waited - most;
        own.waited = most;
    }
    while (own.waited >= own.due)
        pass(own.waited);
}

/* Tells the device of the link, if it changed. */
static void look_at_link(void)
{
    struct lan9118_link now;
    pn_link told;
    lan9118_link(&now);
    if (memcmp(&now, &link, sizeof now) == 0)
        return;
    link = now;
    told = (pn_link){PN_AUTONEG_SUPPORTED | PN_AUTONEG_ENABLED, now.capability, now.mau};
    must(pn_tell_link(&device, &op, now.is_up, now.mau != 0 ? &told : NULL), "pn_tell_link");
    console_say(now.is_up ? "link up\n" : "link down\n");
}

/* What is looked at more rarely: the state of the relation, which time may have ended, and the link. */
static void look_around(void)
{
    own.look_age = 0;
    must(pn_state(&device, &op), "pn_state");
    if (op.phase != own.phase)
        look();
    if (own.link_age < LINK_PERIOD)
        return;
    own.link_age = 0;
    look_at_link();
}

/* The application, the serial line and the watchdog, each millisecond. */
static void step(void)
{
    uint32_t units = own.step_age;
    own.step_age = 0;
    own.has_outputs = 0;
    own.look_age += units;
    application_step(units);
    console_step();
    watchdog_feed();
    if (own.look_age < LOOK_PERIOD)
        return;
    own.link_age += own.look_age;
    look_around();
}

/* One turn of the loop. Frames come before the time, because they arrived before its end. */
static void turn(void)
{
    uint32_t units = clock_units();
    own.waited += units;
    own.step_age += units;
    counts.turns++;
    if (lan9118_has_frames())
        take_frames();
    if (own.step_age >= STEP || (own.step_age >= EARLIEST_STEP && own.has_outputs))
        step();
    if (own.waited >= own.due)
        take_time();
}

/* Units until the next turn has something to do, unless a frame comes before. */
static uint32_t until_next(void)
{
    uint32_t step_in = STEP - own.step_age, due_in = own.due - own.waited;
    return due_in < step_in ? due_in : step_in;
}

void host_run(void)
{
    meter_begin(METER_BOOT);
    start();
    meter_end(METER_BOOT);
    for (;;) {
        clock_sleep(until_next());
        turn();
    }
}
