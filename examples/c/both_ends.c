/* A device and its controller in one process, without a wire: a counter with four octets of input, an octet of output and a parameter record. They
 * start, exchange data and report alarms; and the device refuses what its application says at a wrong time, for each reason that needs a relation.
 * cc -std=c11 both_ends.c $(pkg-config --cflags --libs nandutable) */
#include "nandutable_controller.h"
#include <stdio.h>
#include <stdlib.h>

#define LONGEST 320000u /* units of time, ten seconds: within them each step of both ends is over */

/* Frames that are on their way to one end. */
struct way {
    uint32_t count;
    uint32_t lengths[64];
    uint8_t octets[64][PN_FRAME_SIZE];
};

static uint8_t chip[2][PN_SECTOR_SIZE];
static pn_device device;
static pn_controller controller;
static pn_op op, other; /* of the device, and of the controller */
static pn_watch watch;
static struct way to_device, to_controller, now;
static int is_held;        /* the alarms of the device do not arrive */
static uint32_t confirmed; /* how many alarms of the device were acknowledged */

static void must(uint32_t answer, const char *what)
{
    if (answer == PN_OK)
        return;
    printf("%s: %s%s%s\n", what, pn_strerror(answer), answer == PN_REFUSED ? ": " : "", answer == PN_REFUSED ? pn_strreason(op.reason) : "");
    exit(1);
}

/* The device refuses what its application says, for this reason. */
static void refused(uint32_t answer, uint32_t reason, const char *what)
{
    printf("%s: %s\n", what, pn_strreason(op.reason));
    if (answer != PN_REFUSED || op.reason != reason) {
        printf("returns %u, and the reason should be: %s\n", (unsigned)answer, pn_strreason(reason));
        exit(1);
    }
}

/* --- What a host does for both ends --- */

static int program(void *context, uint32_t sector, uint32_t place, const uint8_t *octets, uint32_t length)
{
    (void)context;
    for (uint32_t i = 0; i < length; i++)
        chip[sector][place + i] &= octets[i];
    return 0;
}

static int erase(void *context, uint32_t sector)
{
    (void)context;
    memset(chip[sector], 0xFF, PN_SECTOR_SIZE);
    return 0;
}

static int sends(void *context, const uint8_t *octets, uint32_t length)
{
    struct way *way = context;
    if (way->count == 64)
        return 1;
    memcpy(way->octets[way->count], octets, length);
    way->lengths[way->count++] = length;
    return 0;
}

static const pn_host of_device = {&to_controller, program, erase, sends}, of_controller = {&to_device, NULL, NULL, sends};

/* The work of what the device accepted, and what became of its alarm. */
static void accepted(uint32_t answer, const char *what)
{
    must(answer, what);
    must(pn_carry_out(&device, &op, &of_device), what);
    confirmed += op.confirmed == PN_ACKNOWLEDGED;
    if (op.confirmed == PN_ACKNOWLEDGED)
        printf("the alarm is acknowledged, PNIOStatus %08X\n", (unsigned)op.status);
    else if (op.confirmed == PN_GIVEN_UP)
        puts("the alarm is given up");
}

static void accepted_by_controller(uint32_t answer, const char *what)
{
    must(answer, what);
    must(pn_controller_send(&controller, &other, &of_controller), what);
}

/* The FrameID of an alarm, after a VLAN tag. */
static int is_alarm(const uint8_t *octets)
{
    return octets[12] == 0x81 && (octets[18] == 0xFC || octets[18] == 0xFE);
}

/* The frames that each end sent arrive at the other one. */
static void deliver(void)
{
    now = to_controller, to_controller.count = 0;
    for (uint32_t i = 0; i < now.count; i++)
        if (!is_held || !is_alarm(now.octets[i]))
            accepted_by_controller(pn_controller_frame(&controller, &other, now.octets[i], now.lengths[i]), "pn_controller_frame");
    now = to_device, to_device.count = 0;
    for (uint32_t i = 0; i < now.count; i++)
        accepted(pn_frame(&device, &op, now.octets[i], now.lengths[i]), "pn_frame");
}

/* What the application of the device learns. */
static void tell_news(void)
{
    static const char *const phases[] = {"none", "started", "awaiting", "exchanging"};
    uint32_t news;
    must(pn_news(&device, &op, &watch, &news), "pn_news");
    if ((news & PN_NEW_NAME) != 0)
        printf("name %.*s\n", (int)watch.settings.name_length, (const char *)watch.settings.name);
    if ((news & PN_NEW_PHASE) != 0)
        printf("phase %s\n", phases[watch.phase]);
    for (uint32_t i = watch.first_record; (news & PN_NEW_RECORDS) != 0 && i < watch.records; i++) {
        must(pn_taken(&device, &op, i), "pn_taken");
        printf("record %u of slot %u subslot %u: %u octets\n", (unsigned)op.index, (unsigned)op.slot, (unsigned)op.subslot, (unsigned)op.length);
    }
    if ((news & PN_PARAMETERS_END) != 0)
        puts("the parameters have ended");
}

/* Units of time pass at both ends. A frame arrives in the next one. */
static void pass(uint32_t units)
{
    for (; units > 0; units--) {
        accepted(pn_tick(&device, &op, 1), "pn_tick");
        accepted_by_controller(pn_controller_tick(&controller, &other, 1), "pn_controller_tick");
        deliver();
        tell_news();
    }
}

/* --- The device and its plan --- */

static const pn_station station = {
    .mac = {0x02, 0, 0, 0, 0, 1}, .vendor_id = 0x0123, .device_id = 0x0458, .instance = 1, .station_type_length = 7, .station_type = "counter",
    .order_id = "COUNTER 1           ", .serial_number = "1               ", .software_revision = {'V', 1, 0, 0}, .inputs_begin_bad = 1,
    .ready_by_application = 1, .without_services = 1, .module_count = 3,
    .modules = {{.ident = 1, .slot = 0, .submodule_count = 1, .submodules = {{.ident = 1, .subslot = 1}}},
                {.ident = 48, .slot = 1, .submodule_count = 1,
                 .submodules = {{.ident = 49, .subslot = 1, .input = 4, .output = 1, .parameter_count = 1, .parameters = {{1, 4}}}}},
                {.ident = 50, .slot = 2, .submodule_count = 1, .submodules = {{.ident = 51, .subslot = 1, .input = 2}}}}};

/* The controller expects the access point and the counter, not the module in slot 2. */
static const pn_plan *planned(void)
{
    static pn_plan plan = {
        .name = "count-1", .controller_name = "plc", .name_length = 7, .controller_name_length = 3, .address = {192, 168, 0, 2},
        .mask = {255, 255, 255, 0}, .controller_address = {192, 168, 0, 1}, .controller_mac = {0x02, 0, 0, 0, 0, 2}, .send_clock_factor = 32,
        .reduction_ratio = 1, .data_hold_factor = 3, .record_count = 1, .records = {{1, 1, 1, 4, {0, 0, 0, 100}}}};
    plan.vendor_id = station.vendor_id, plan.device_id = station.device_id;
    plan.station_type_length = station.station_type_length;
    memcpy(plan.station_type, station.station_type, sizeof plan.station_type);
    plan.module_count = 2;
    memcpy(plan.modules, station.modules, sizeof plan.modules);
    must(pn_plan_fault(&plan), "pn_plan_fault");
    return &plan;
}

/* A DCP Set: the permanent name `count-1`. */
static const uint8_t set[] = {0x02, 0, 0, 0, 0, 1, 0x02, 0, 0, 0, 0, 2, 0x88, 0x92, 0xFE, 0xFD, 4, 0, 0, 0, 0, 1, 0, 0, 0, 14,
                              2, 2, 0, 9, 0, 1, 'c', 'o', 'u', 'n', 't', '-', '1', 0};
static const uint8_t count[4] = {0, 0, 0, 7};

static void start_both(void)
{
    static const uint8_t ar[16] = {1}, activity[16] = {2};
    memset(chip, 0xFF, sizeof chip);
    must(pn_make(&device, &station), "pn_make");
    must(pn_boot(&device, &op, chip[0], chip[1]), "pn_boot");
    tell_news();
    accepted(pn_frame(&device, &op, set, sizeof set), "a Set");
    to_controller.count = 0; /* its answer is for the tool that sent it */
    tell_news();
    refused(pn_input(&device, &op, 1, 1, count, 4), PN_WHY_NO_RELATION, "an input");
    accepted_by_controller(pn_controller_start(&controller, planned(), ar, activity), "pn_controller_start");
}

/* Units of time pass until the device is in this phase. If it does not come, this says how far both ends are: mostly a name or a MAC address is not
 * the one that the other end has. */
static void wait_for(uint32_t phase, const char *what)
{
    static const char *const does[] = {"is not started", "looks for its station", "sets the address", "asks for the relation", "writes the records",
                                       "ends the parameters", "waits until the device is ready", "exchanges data", "has ended"};
    for (uint32_t units = 0; watch.phase != phase && units < LONGEST; units++)
        pass(1);
    if (watch.phase == phase)
        return;
    must(pn_controller_state(&controller, &other), "pn_controller_state");
    printf("%s: not within ten seconds. The controller for the station '%.*s' %s; the device has the name '%.*s'\n", what,
           (int)planned()->name_length, (const char *)planned()->name, does[other.phase], (int)watch.settings.name_length,
           (const char *)watch.settings.name);
    exit(1);
}

/* The start-up, up to the exchange of data. */
static void get_ready(void)
{
    wait_for(PN_STARTED, "a relation");
    refused(pn_alarm(&device, &op, 1, 1, count, 4), PN_WHY_NO_EXCHANGE, "an alarm");
    refused(pn_ready(&device, &op), PN_WHY_TOO_EARLY, "ready");
    wait_for(PN_AWAITING, "the end of the parameters");
    accepted(pn_input(&device, &op, 1, 1, count, 4), "pn_input");
    refused(pn_input(&device, &op, 2, 1, count, 2), PN_WHY_NO_PLACE, "an input of slot 2");
    accepted(pn_ready(&device, &op), "pn_ready");
    refused(pn_ready(&device, &op), PN_WHY_TOO_LATE, "ready again");
    wait_for(PN_EXCHANGING, "the exchange of data");
}

static void exchange(void)
{
    static const uint8_t reset[1] = {1};
    uint8_t iops = 0, status = 0;
    must(pn_controller_give(&controller, &other, 1, 1, reset, 1), "pn_controller_give");
    pass(100);
    must(pn_controller_value(&controller, &other, 1, 1), "pn_controller_value");
    printf("the controller has the count %u\n", other.octets[3]);
    must(pn_received_exactly(&device, &op, 1, 1, 1, &iops, &status), "pn_received_exactly");
    printf("the device has the output %u, IOPS %02X, DataStatus %02X\n", op.octets[0], iops, status);
}

/* No alarm arrives at first; then all of them. */
static void report(void)
{
    is_held = 1;
    accepted(pn_alarm(&device, &op, 1, 1, count, 4), "pn_alarm");
    refused(pn_alarm(&device, &op, 1, 1, count, 4), PN_WHY_ALARM_OPEN, "an alarm again");
    for (uint16_t error = 1; error <= 32; error++)
        accepted(pn_diagnosis(&device, &op, 1, 1, 3, error, 1), "pn_diagnosis");
    accepted(pn_diagnosis(&device, &op, 1, 1, 3, 1, 0), "pn_diagnosis");
    refused(pn_diagnosis(&device, &op, 1, 1, 3, 2, 0), PN_WHY_CHANGES_WAIT, "a diagnosis");
    is_held = 0;
    pass(32000);
    must(pn_controller_alarm(&controller, &other), "pn_controller_alarm");
    printf("the controller has an alarm of slot %u subslot %u: type %u\n", (unsigned)other.slot, (unsigned)other.subslot, (unsigned)other.alarm_type);
    must(pn_controller_diagnosis(&controller, &other, 30), "pn_controller_diagnosis");
    printf("its last diagnosis: channel %u error %u\n", (unsigned)other.channel, (unsigned)other.error);
    accepted(pn_alarm(&device, &op, 1, 1, count, 4), "pn_alarm");
    if (confirmed != 1) {
        printf("%u alarms are acknowledged\n", (unsigned)confirmed);
        exit(1);
    }
}

int main(void)
{
    start_both();
    get_ready();
    exchange();
    report();
    must(pn_controller_state(&controller, &other), "pn_controller_state");
    printf("the controller is in state %u\n", (unsigned)other.phase);
    return 0;
}
