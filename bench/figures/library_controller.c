/* Figures of the controller's library through its header, for bench/figures/library.py: what callgrind counts, N times. A unit of time in
 * an exchange (`unit`) and while the controller looks for its station (`looking`), 32 units (`leap`), a cyclic frame (`cyclic`), a unit
 * with the frame that it sends (`sent`), the millisecond of an exchange (`cycle`), or the same with a value that is read and one that is
 * given (`values`). The other end is the device of the library. Callgrind counts what is executed within pn_controller_step, and not what
 * this program does. */
#include "nandutable_controller.h"
#include <stdio.h>
#include <stdlib.h>

#define OCTETS 40u

static pn_device device;
static pn_controller controller;
static pn_op op;
static pn_station station;
static pn_plan plan;
static uint8_t erased[PN_SECTOR_SIZE], octets[OCTETS];

/* The last cyclic frame of the device. */
static uint8_t cyclic[1600];
static size_t cyclic_length;

/* How many frames the controller sent. */
static uint64_t sent;

static void must(int is_so, int status)
{
    if (!is_so)
        exit(status);
}

/* --- A station and its plan: 40 octets in each direction --- */

static void describe(uint16_t send_clock_factor, uint16_t reduction_ratio)
{
    static const pn_module modules[3] = {{.ident = 1, .slot = 0, .submodule_count = 3,
                                          .submodules = {{.ident = 1, .subslot = 1}, {.ident = 2, .subslot = 0x8000}, {.ident = 3, .subslot = 0x8001}}},
                                         {.ident = 16, .slot = 1, .submodule_count = 1, .submodules = {{.ident = 16, .subslot = 1, .input = OCTETS}}},
                                         {.ident = 32, .slot = 2, .submodule_count = 1, .submodules = {{.ident = 32, .subslot = 1, .output = OCTETS}}}};
    static const uint8_t addresses[4][4] = {{192, 168, 0, 2}, {255, 255, 255, 0}, {0, 0, 0, 0}, {192, 168, 0, 1}};
    static const uint8_t own_mac[6] = {2, 0, 0, 0, 0, 2}, mac[6] = {2, 0, 0, 0, 0, 1};
    memcpy(plan.name, "pump-1", plan.name_length = 6);
    memcpy(plan.controller_name, "plc", plan.controller_name_length = 3);
    memcpy(plan.address, addresses, 16); /* address, mask, gateway, and the controller's */
    memcpy(plan.controller_mac, own_mac, sizeof own_mac);
    plan.vendor_id = 0x0123;
    plan.device_id = 0x0456;
    plan.send_clock_factor = send_clock_factor;
    plan.reduction_ratio = reduction_ratio;
    plan.data_hold_factor = 7680;
    memcpy(plan.station_type, "pn-demo", plan.station_type_length = 7);
    memcpy(plan.modules, modules, sizeof modules);
    plan.module_count = 3;
    must(pn_plan_fault(&plan) == PN_OK && pn_plan_station(&plan, &station) == PN_OK, 3);
    memcpy(station.mac, mac, sizeof mac);
    memset(station.order_id, ' ', sizeof station.order_id);
    memset(station.serial_number, ' ', sizeof station.serial_number);
    station.software_revision[0] = 'V';
    station.instance = 1;
}

/* --- Both ends: what one sends, the other receives --- */

static int is_cyclic(const uint8_t *frame, size_t length)
{
    const uint8_t *type = frame + (frame[12] == 0x81 ? 16 : 12);
    return length >= 60 && type[0] == 0x88 && type[1] == 0x92 && type[2] >= 0x80 && type[2] < 0xF8;
}

#define WAITING 16u

struct way {
    uint8_t octets[WAITING][1600];
    size_t length[WAITING];
    unsigned count;
};

static struct way to_device, to_controller;

static void push(struct way *way, const uint8_t *frame, size_t length)
{
    if (way->count == WAITING)
        return; /* lost, as it could be on a wire */
    must(length <= sizeof way->octets[0], 4);
    memcpy(way->octets[way->count], frame, length);
    way->length[way->count++] = length;
}

static int from_device(void *context, const uint8_t *frame, uint32_t length)
{
    (void)context;
    if (is_cyclic(frame, length))
        memcpy(cyclic, frame, cyclic_length = length);
    push(&to_controller, frame, length);
    return 0;
}

static int from_controller(void *context, const uint8_t *frame, uint32_t length)
{
    (void)context;
    sent++;
    push(&to_device, frame, length);
    return 0;
}

static int program(void *context, uint32_t sector, uint32_t place, const uint8_t *data, uint32_t length)
{
    (void)context, (void)sector, (void)place, (void)data, (void)length;
    return 0;
}

static int erase(void *context, uint32_t sector)
{
    (void)context, (void)sector;
    return 0;
}

static const pn_host device_host = {NULL, program, erase, from_device}, controller_host = {NULL, NULL, NULL, from_controller};

static void carry_out(void)
{
    must(pn_carry_out(&device, &op, &device_host) == PN_OK, 5);
}

static void frames(void)
{
    must(pn_controller_send(&controller, &op, &controller_host) == PN_OK, 6);
}

/* All frames that are under way arrive. */
static void deliver(void)
{
    static struct way moved;
    moved = to_device;
    to_device.count = 0;
    for (unsigned i = 0; i < moved.count; i++) {
        must(pn_frame(&device, &op, moved.octets[i], moved.length[i]) == PN_OK, 7);
        carry_out();
    }
    moved = to_controller;
    to_controller.count = 0;
    for (unsigned i = 0; i < moved.count; i++) {
        must(pn_controller_frame(&controller, &op, moved.octets[i], moved.length[i]) == PN_OK, 8);
        frames();
    }
}

static void units_pass(uint32_t units)
{
    uint32_t left;
    for (left = units; left != 0; left = op.units) {
        must(pn_tick(&device, &op, left) == PN_OK, 9);
        left = op.units;
        carry_out();
        op.units = left;
    }
    for (left = units; left != 0; left = op.units) {
        must(pn_controller_tick(&controller, &op, left) == PN_OK, 10);
        left = op.units;
        frames();
        op.units = left;
    }
    deliver();
}

static uint32_t phase(void)
{
    must(pn_controller_state(&controller, &op) == PN_OK, 11);
    return op.phase;
}

static void start(void)
{
    static const uint8_t ar[16] = {1}, activity[16] = {2};
    memset(erased, 0xFF, sizeof erased);
    must(pn_make(&device, &station) == PN_OK && pn_boot(&device, &op, erased, erased) == PN_OK, 12);
    carry_out();
    must(pn_controller_start(&controller, &plan, ar, activity) == PN_OK, 13);
    frames();
    to_device.count = 0; /* the station has no name yet */
}

static void exchange(uint32_t step)
{
    /* The station gets its name, as by a tool: DCP Set, permanent. */
    static const uint8_t set[60] = {2, 0, 0, 0, 0, 1, 2, 0, 0, 0, 0, 9, 0x88, 0x92, 0xFE, 0xFD, 4, 0, 0, 0, 0, 1, 0, 0, 0, 12, 2, 2, 0, 8, 0, 1,
                                    'p', 'u', 'm', 'p', '-', '1'};
    must(pn_frame(&device, &op, set, sizeof set) == PN_OK, 14);
    carry_out();
    must(pn_controller_give(&controller, &op, 2, 1, octets, OCTETS) == PN_OK, 15);
    frames();
    for (uint32_t i = 0; i < 128000 && phase() != PN_DATA_EXCHANGE; i += step)
        units_pass(step);
    must(phase() == PN_DATA_EXCHANGE, 16);
    must(pn_input(&device, &op, 1, 1, octets, OCTETS) == PN_OK, 17);
    carry_out();
    for (uint32_t i = 0; i < 128000 && cyclic_length == 0; i += step)
        units_pass(step);
    must(cyclic_length != 0, 21);
    for (uint32_t i = 0; i < 66 && step != 1; i++)
        units_pass(1000); /* until the announcements are over */
}

/* --- What is counted --- */

/* The cyclic frame comes again, a number of units later, and is accepted. */
static void next_cyclic(unsigned units)
{
    uint8_t *counter = cyclic + cyclic_length - 4;
    unsigned number = counter[0] * 256u + counter[1] + units;
    counter[0] = (uint8_t)(number >> 8);
    counter[1] = (uint8_t)number;
    must(pn_controller_frame(&controller, &op, cyclic, cyclic_length) == PN_OK, 18);
}

/* A millisecond as a host has it: a cyclic frame in, values between, and 32 units with a cyclic frame out. After the frame and after the units
 * all frames are fetched. */
static void cycle(int has_values, uint8_t number)
{
    next_cyclic(32);
    frames();
    if (has_values) {
        must(pn_controller_value(&controller, &op, 1, 1) == PN_OK && op.length == OCTETS, 22);
        memset(octets, number, OCTETS);
        must(pn_controller_give(&controller, &op, 2, 1, octets, OCTETS) == PN_OK, 23);
    }
    for (uint32_t left = 32, rest; left != 0; left = rest) { /* in two parts only if LLDP is due in it */
        must(pn_controller_tick(&controller, &op, left) == PN_OK, 24);
        rest = op.units;
        frames();
    }
    to_device.count = 0;
}

static void count(const char *what, unsigned long turns)
{
    for (unsigned long i = 0; i < turns; i++) {
        if (strcmp(what, "cyclic") == 0) {
            next_cyclic(1);
        } else if (strcmp(what, "cycle") == 0 || strcmp(what, "values") == 0) {
            cycle(what[0] == 'v', (uint8_t)i);
        } else {
            must(pn_controller_tick(&controller, &op, strcmp(what, "leap") == 0 ? 32 : 1) == PN_OK && op.units == 0, 19);
            if (strcmp(what, "sent") == 0) {
                must(pn_controller_next(&controller, &op) == PN_OK && op.work == PN_SEND && is_cyclic(op.octets, op.length), 20);
                sent++;
            }
        }
    }
}

int main(int words, char **word)
{
    must(words == 3, 2);
    int each_unit = strcmp(word[1], "sent") == 0, each_cycle = strcmp(word[1], "cycle") == 0 || strcmp(word[1], "values") == 0;
    describe(each_unit ? 1 : each_cycle ? 32 : 128, each_unit || each_cycle ? 1 : 512);
    start();
    if (strcmp(word[1], "looking") == 0)
        units_pass(5 * 32000 + 1000); /* after its announcements, LLDP and an Identify */
    else
        exchange(each_unit ? 1 : 32);
    if (each_cycle) {
        /* Up to a unit that sends: each millisecond then ends with one. */
        must(pn_controller_tick(&controller, &op, 32) == PN_OK, 25);
        frames();
    }
    sent = 0;
    count(word[1], strtoul(word[2], NULL, 10));
    printf("%llu\n", (unsigned long long)sent);
    return 0;
}
