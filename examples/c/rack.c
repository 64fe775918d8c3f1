/* A rack with four slots for modules, and its controller, in one process without a wire. The host reads at the backplane which module is in which
 * slot, and says it to the device: at its start by the station, and while it runs by pulls and plugs.
 * cc -std=c11 rack.c $(pkg-config --cflags --libs nandutable) */
#include "nandutable_controller.h"
#include <stdio.h>
#include <stdlib.h>

#define SLOTS 4u
#define LONGEST 320000u /* units of time, ten seconds: within them each step of both ends is over */

/* What can be plugged: the ident number of the module, and its submodule. */
struct kind {
    const char *name;
    uint32_t ident;
    pn_submodule submodule;
};

static const struct kind input_kind = {"input", 16, {.ident = 16, .subslot = 1, .input = 2, .parameter_count = 1, .parameters = {{.index = 1, .length = 2}}}};
static const struct kind output_kind = {"output", 32, {.ident = 32, .subslot = 1, .output = 2}};

/* Frames that are on their way to one end. */
struct way {
    uint32_t count;
    uint32_t lengths[64];
    uint8_t octets[64][PN_FRAME_SIZE];
};

static uint8_t chip[2][PN_SECTOR_SIZE];
static pn_device device;
static pn_controller controller;
static pn_op op, other; /* of the device, and of the controller */
static pn_watch watch;
static struct way to_device, to_controller, now;
static char alarms[16]; /* the AlarmTypes of low priority that the controller accepted, in their order */
static uint32_t alarm_count, last_alarm = 65536;
static const struct kind *present[SLOTS + 1]; /* what is in each slot: a board reads it at its backplane */
static const struct kind *known[SLOTS + 1];   /* what the device knows of it */

static void must(uint32_t answer, const char *what)
{
    if (answer == PN_OK)
        return;
    printf("%s: %s%s%s\n", what, pn_strerror(answer), answer == PN_REFUSED ? ": " : "", answer == PN_REFUSED ? pn_strreason(op.reason) : "");
    exit(1);
}

/* --- What a host does for both ends --- */

static int program(void *context, uint32_t sector, uint32_t place, const uint8_t *octets, uint32_t length)
{
    (void)context;
    for (uint32_t i = 0; i < length; i++)
        chip[sector][place + i] &= octets[i];
    return 0;
}

static int erase(void *context, uint32_t sector)
{
    (void)context;
    memset(chip[sector], 0xFF, PN_SECTOR_SIZE);
    return 0;
}

static int sends(void *context, const uint8_t *octets, uint32_t length)
{
    struct way *way = context;
    if (way->count == 64)
        return 1;
    memcpy(way->octets[way->count], octets, length);
    way->lengths[way->count++] = length;
    return 0;
}

static const pn_host of_device = {&to_controller, program, erase, sends}, of_controller = {&to_device, NULL, NULL, sends};

static void accepted(uint32_t answer, const char *what)
{
    must(answer, what);
    must(pn_carry_out(&device, &op, &of_device), what);
}

static void accepted_by_controller(uint32_t answer, const char *what)
{
    must(answer, what);
    must(pn_controller_send(&controller, &other, &of_controller), what);
}

/* The frames that each end sent arrive at the other one. */
static void deliver(void)
{
    now = to_controller, to_controller.count = 0;
    for (uint32_t i = 0; i < now.count; i++) {
        accepted_by_controller(pn_controller_frame(&controller, &other, now.octets[i], now.lengths[i]), "pn_controller_frame");
        if (pn_controller_report(&controller, &other, 1) == PN_OK && other.sequence != last_alarm && alarm_count < sizeof alarms) {
            last_alarm = other.sequence;
            alarms[alarm_count++] = (char)other.alarm_type;
        }
    }
    now = to_device, to_device.count = 0;
    for (uint32_t i = 0; i < now.count; i++)
        accepted(pn_frame(&device, &op, now.octets[i], now.lengths[i]), "pn_frame");
}

/* --- The rack --- */

/* What is plugged at the start. */
static const pn_station *read_station(void)
{
    static pn_station station;
    station = (pn_station){
        .mac = {0x02, 0, 0, 0, 0, 1}, .vendor_id = 0x0123, .device_id = 0x0459, .instance = 1, .station_type_length = 4, .station_type = "rack",
        .order_id = "RACK 4              ", .serial_number = "1               ", .software_revision = {'V', 1, 0, 0}, .inputs_begin_bad = 1,
        .ready_by_application = 1, .without_services = 1, .module_count = 1,
        .modules = {{.ident = 1, .slot = 0, .submodule_count = 1, .submodules = {{.ident = 1, .subslot = 1}}}}};
    for (uint16_t slot = 1; slot <= SLOTS; slot++) {
        known[slot] = present[slot];
        if (present[slot] != NULL)
            station.modules[station.module_count++] =
                (pn_module){.ident = present[slot]->ident, .slot = slot, .submodule_count = 1, .submodules = {present[slot]->submodule}};
    }
    return &station;
}

/* A pull or a plug was refused because too many wait for their alarms. It is tried again, as the backplane is read again. */
static int is_postponed(uint32_t answer)
{
    return answer == PN_REFUSED && op.reason == PN_WHY_CHANGES_WAIT;
}

/* Reads the backplane, each ten milliseconds for instance: says to the device which modules went and came. */
static void read_backplane(void)
{
    for (uint16_t slot = 1; slot <= SLOTS; slot++) {
        uint32_t answer;
        if (present[slot] == known[slot])
            continue;
        if (known[slot] != NULL) {
            if (is_postponed(answer = pn_pull_module(&device, &op, slot)))
                return;
            accepted(answer, "pn_pull_module");
            known[slot] = NULL;
        }
        if (present[slot] != NULL) {
            if (is_postponed(answer = pn_plug(&device, &op, slot, present[slot]->ident, &present[slot]->submodule)))
                return;
            accepted(answer, "pn_plug");
            known[slot] = present[slot];
        }
    }
}

/* The submodules that the controller expects: how far each is, and ready where its parameters have ended. */
static void look_at_places(void)
{
    static const char *const words[] = {"good", "differs", "plugged", "told", "ended", "refused"};
    for (uint32_t i = 0; pn_expected(&device, &op, i) == PN_OK; i++) {
        uint16_t slot = (uint16_t)op.slot, subslot = (uint16_t)op.subslot;
        uint32_t progress = op.progress;
        if (progress != PN_PLACE_GOOD)
            printf("slot %u subslot %u: %s\n", slot, subslot, words[progress]);
        if (progress == PN_PLACE_ENDED && pn_ready_at(&device, &op, slot, subslot) == PN_OK)
            accepted(PN_OK, "pn_ready_at"); /* otherwise it was said before */
    }
}

/* What the application learns, after each event. */
static void look(void)
{
    static const char *const phases[] = {"none", "started", "awaiting", "exchanging"};
    uint32_t news;
    must(pn_news(&device, &op, &watch, &news), "pn_news");
    if ((news & PN_NEW_PHASE) != 0)
        printf("phase %s\n", phases[watch.phase]);
    for (uint32_t i = watch.first_record; (news & PN_NEW_RECORDS) != 0 && i < watch.records; i++) {
        must(pn_taken(&device, &op, i), "pn_taken");
        printf("record %u of slot %u\n", (unsigned)op.index, (unsigned)op.slot);
    }
    if ((news & PN_PARAMETERS_END) != 0)
        accepted(pn_ready(&device, &op), "pn_ready");
    if ((news & (PN_NEW_PLUGS | PN_NEW_RELATION)) != 0)
        look_at_places();
}

/* Units of time pass at both ends. A frame arrives in the next one. */
static void pass(uint32_t units)
{
    for (; units > 0; units--) {
        accepted(pn_tick(&device, &op, 1), "pn_tick");
        accepted_by_controller(pn_controller_tick(&controller, &other, 1), "pn_controller_tick");
        deliver();
        look();
    }
}

/* Units of time pass until the device is in this phase. If it does not come, mostly a name or a MAC address is not the one of the other end. */
static void wait_for(uint32_t phase, const char *what)
{
    for (uint32_t units = 0; watch.phase != phase && units < LONGEST; units++)
        pass(1);
    if (watch.phase == phase)
        return;
    must(pn_controller_state(&controller, &other), "pn_controller_state");
    printf("%s: not within ten seconds. The controller is in state %u of enum pn_controller_phase; the device has the name '%.*s'\n", what,
           (unsigned)other.phase, (int)watch.settings.name_length, (const char *)watch.settings.name);
    exit(1);
}

/* --- What happens --- */

/* The controller expects four modules: inputs in slots 1 and 3, outputs in slots 2 and 4. */
static const pn_plan *planned(const pn_station *station)
{
    static pn_plan plan = {
        .name = "rack-1", .controller_name = "plc", .name_length = 6, .controller_name_length = 3, .address = {192, 168, 0, 2},
        .mask = {255, 255, 255, 0}, .controller_address = {192, 168, 0, 1}, .controller_mac = {0x02, 0, 0, 0, 0, 2}, .send_clock_factor = 32,
        .reduction_ratio = 1, .data_hold_factor = 3, .record_count = 2, .records = {{1, 1, 1, 2, {0, 1}}, {3, 1, 1, 2, {0, 3}}}};
    plan.vendor_id = station->vendor_id, plan.device_id = station->device_id;
    plan.station_type_length = station->station_type_length;
    memcpy(plan.station_type, station->station_type, sizeof plan.station_type);
    plan.module_count = station->module_count;
    memcpy(plan.modules, station->modules, sizeof plan.modules);
    must(pn_plan_fault(&plan), "pn_plan_fault");
    return &plan;
}

/* A DCP Set: the permanent name `rack-1`. */
static const uint8_t set[] = {0x02, 0, 0, 0, 0, 1, 0x02, 0, 0, 0, 0, 2, 0x88, 0x92, 0xFE, 0xFD, 4, 0, 0, 0, 0, 1, 0, 0, 0, 12,
                              2, 2, 0, 8, 0, 1, 'r', 'a', 'c', 'k', '-', '1'};

static void start_relation(const pn_plan *plan, uint8_t number)
{
    const uint8_t ar[16] = {number}, activity[16] = {1, number};
    accepted_by_controller(pn_controller_start(&controller, plan, ar, activity), "pn_controller_start");
    wait_for(PN_EXCHANGING, "the exchange of data");
    pass(100);
}

/* The place of slot 3, and the alarms since the last look. */
static void wants(uint32_t progress, const char *types)
{
    must(pn_expected(&device, &op, 3), "pn_expected");
    if (op.slot != 3 || op.progress != progress || alarm_count != strlen(types) || memcmp(alarms, types, alarm_count) != 0) {
        printf("slot %u is at %u, and %u alarms came\n", (unsigned)op.slot, (unsigned)op.progress, (unsigned)alarm_count);
        exit(1);
    }
    alarm_count = 0;
}

static void swap(const struct kind *kind)
{
    printf("-- slot 3: %s\n", kind == NULL ? "nothing" : kind->name);
    present[3] = kind;
    read_backplane();
    pass(320);
}

int main(void)
{
    const pn_station *station;
    const pn_plan *plan;
    present[1] = present[3] = &input_kind, present[2] = present[4] = &output_kind;
    memset(chip, 0xFF, sizeof chip);
    station = read_station();
    plan = planned(station);
    must(pn_make(&device, station), "pn_make");
    must(pn_boot(&device, &op, chip[0], chip[1]), "pn_boot");
    look();
    accepted(pn_frame(&device, &op, set, sizeof set), "a Set");
    to_controller.count = 0; /* its answer is for the tool that sent it */
    start_relation(plan, 1);
    wants(PN_PLACE_GOOD, "");
    swap(NULL);
    wants(PN_PLACE_DIFFERS, "\3");
    swap(&output_kind);
    wants(PN_PLACE_DIFFERS, "\12");
    swap(&input_kind); /* the host pulls the one and plugs the other */
    /* The controller of this repository writes no parameters after a plug, so the place waits for them until the next relation. */
    wants(PN_PLACE_TOLD, "\3\4");
    accepted_by_controller(pn_controller_stop(&controller, &other), "pn_controller_stop");
    wait_for(PN_NONE, "the end of the relation");
    start_relation(plan, 2);
    wants(PN_PLACE_GOOD, "");
    return 0;
}
