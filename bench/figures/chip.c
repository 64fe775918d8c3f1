/* How deep each function of the libraries for C goes into a painted stack, for bench/figures/chip: a device with its services, a
 * controller and a tool, which send each other their frames. It plays the lines on standard input; on the board of boards/mps2-an386/ram (BOARD) they are in the
 * file chip.txt.
 *
 *     power               the device loses power and starts again from its flash
 *     station N           the same with another station: 0 the demo station, N a station of 16 modules with N submodules in all
 *     without             the device is alone from the next start on; `with` has its services again
 *     frame HEX           a frame for the device. What it sends goes to nobody
 *     heard HEX           a frame for the controller
 *     tick N              units of time pass at the device
 *     input S SS HEX, alarm S SS HEX, status S SS N, diagnosis S SS CHANNEL ERROR N, ready, link N, lose
 *     records STRIDE HEX  this call that reads a record: of each STRIDE-th index and of each of a row of known ones
 *     both N              a controller of the station N meets the device
 *     tool                a tool names the device, and reads a record of it
 *     catalogue FILE      a plan is read from a catalogue, and the key of its first fault (not on the board)
 */
#include "nandutable_controller.h"
#include <stdio.h>
#include <stdlib.h>

#define LONGEST 8192

/* What only a PC needs: it allocates memory. */
#ifdef BOARD
#define OF_A_PC(F)
#else
#define OF_A_PC(F) F(pn_plan_read) F(pn_plan_where)
#endif

#define FUNCTIONS(F)                                                                                                               \
    F(pn_make) F(pn_boot) F(pn_frame) F(pn_tick) F(pn_input) F(pn_alarm) F(pn_status) F(pn_diagnosis) F(pn_ready) F(pn_tell_link)  \
    F(pn_next) F(pn_lose) F(pn_output) F(pn_provider) F(pn_due) F(pn_conflicts) F(pn_state) F(pn_taken) F(pn_running) F(pn_stored) \
    F(pn_left) F(pn_plan_fault) F(pn_controller_start) F(pn_controller_frame) F(pn_controller_tick) F(pn_controller_give)          \
    F(pn_controller_status) F(pn_controller_read_record) F(pn_controller_write_record) F(pn_controller_stop)                       \
    F(pn_controller_next) F(pn_controller_value) F(pn_controller_state) F(pn_controller_provider) F(pn_controller_due)             \
    F(pn_controller_conflicts) F(pn_controller_neighbour) F(pn_controller_refusal) F(pn_controller_refused_record)                 \
    F(pn_controller_answer) F(pn_controller_alarm) F(pn_controller_report) F(pn_controller_diagnoses)                              \
    F(pn_controller_diagnosis) F(pn_tool_ask) F(pn_tool_heard) F(pn_tool_give) F(pn_tool_given) F(pn_tool_ask_record)              \
    F(pn_tool_record_in) OF_A_PC(F)

#define AS_NUMBER(name) AT_##name,
#define AS_TEXT(name) #name,
enum { FUNCTIONS(AS_NUMBER) KINDS };
static const char *const names[KINDS] = {FUNCTIONS(AS_TEXT)};
static struct {
    uint32_t octets;
    unsigned long line;
} deepest[KINDS];
static unsigned long line_number;

/* --- The stack --- */

#ifdef BOARD
#include "board.h"
#define paint board_paint
#define depth board_depth
void initialise_monitor_handles(void);
#else
/* What is painted, and the octets below the painting function's own frame that it leaves alone. */
#define PAINTED (96u * 1024)
#define MARGIN 256u
#define COLOUR 0xA5A5A5A5A5A5A5A5u

static volatile uint64_t *stack_end;

__attribute__((noinline)) static void paint(void)
{
    volatile uint64_t *top = (volatile uint64_t *)(((uintptr_t)__builtin_frame_address(0) - MARGIN) & ~(uintptr_t)15);
    stack_end = top - PAINTED / sizeof *top;
    for (volatile uint64_t *at = top - 1; at >= stack_end; at--)
        *at = COLOUR;
}

__attribute__((noinline)) static uint32_t depth(void)
{
    const volatile uint64_t *at = stack_end;
    while (*at == COLOUR)
        at++;
    return (uint32_t)((uintptr_t)__builtin_frame_address(0) - (uintptr_t)at);
}
#endif

static void keep(int function, uint32_t octets)
{
    if (octets > deepest[function].octets) {
        deepest[function].octets = octets;
        deepest[function].line = line_number;
    }
}

/* Makes a call on a painted stack, and keeps its depth. */
#define CALL(answer, function, ...)                                                                                                \
    do {                                                                                                                           \
        paint();                                                                                                                   \
        answer = function(__VA_ARGS__);                                                                                            \
        keep(AT_##function, depth());                                                                                              \
    } while (0)

static void fail(const char *what, uint32_t answer)
{
    printf("line %lu: %s: %lu\n", line_number, what, (unsigned long)answer);
    fflush(stdout);
    exit(1);
}

/* --- Both ends, and the frames between them --- */

#define WAITING 16u

struct way {
    uint8_t octets[WAITING][PN_FRAME_SIZE];
    size_t length[WAITING];
    unsigned count;
};

static pn_device device;
static pn_controller controller;
static pn_op op, other;
static pn_station station;
static pn_plan plan;
static uint8_t sectors[2][PN_SECTOR_SIZE];
static struct way to_controller, to_device;
static uint32_t without;

static const uint8_t ar[16] = {0x11, 0x11, 0x11, 0x11, 0x22, 0x22, 0x33, 0x33, 0x44, 0x44, 0x55, 0x55, 0x55, 0x55, 0x55, 0x55};
static const uint8_t activity[16] = {0x66, 0x66, 0x66, 0x66, 0x77, 0x77, 0x88, 0x88, 0x99, 0x99, 0xAA, 0xAA, 0xAA, 0xAA, 0xAA, 0xAA};

static void push(struct way *way, const uint8_t *octets, size_t length)
{
    if (way->count == WAITING || length > PN_FRAME_SIZE)
        return;
    memcpy(way->octets[way->count], octets, length);
    way->length[way->count++] = length;
}

/* --- Stations --- */

/* The demo station, or 16 modules with so many submodules in all. */
static void describe(unsigned submodules)
{
    static const uint8_t controller_mac[6] = {2, 0, 0, 0, 0, 2}, controller_address[4] = {192, 168, 0, 1}, address[4] = {192, 168, 0, 2};
    static const pn_module demo[3] = {{.ident = 1, .slot = 0, .submodule_count = 3,
                                       .submodules = {{.ident = 1, .subslot = 1}, {.ident = 2, .subslot = 0x8000}, {.ident = 3, .subslot = 0x8001}}},
                                      {.ident = 16, .slot = 1, .submodule_count = 1, .submodules = {{.ident = 16, .subslot = 1, .input = 2}}},
                                      {.ident = 32, .slot = 2, .submodule_count = 1, .submodules = {{.ident = 32, .subslot = 1, .output = 2}}}};
    memset(&plan, 0, sizeof plan);
    memcpy(plan.name, "pump-1", 6);
    plan.name_length = 6;
    memcpy(plan.controller_name, "plc", 3);
    plan.controller_name_length = 3;
    memcpy(plan.address, address, 4);
    memset(plan.mask, 255, 3);
    memcpy(plan.controller_address, controller_address, 4);
    memcpy(plan.controller_mac, controller_mac, 6);
    plan.vendor_id = 0x0123;
    plan.device_id = 0x0456;
    plan.send_clock_factor = 32;
    plan.reduction_ratio = 1;
    plan.data_hold_factor = 3;
    memcpy(plan.station_type, "pn-demo", 7);
    plan.station_type_length = 7;
    plan.module_count = 3;
    memcpy(plan.modules, demo, sizeof demo);
    if (submodules != 0) {
        plan.module_count = PN_MODULES;
        for (unsigned i = 0; i < PN_MODULES; i++) {
            unsigned rest = submodules / PN_MODULES + (i < submodules % PN_MODULES);
            pn_module *module = &plan.modules[i];
            memset(module, 0, sizeof *module);
            module->ident = i + 1;
            module->slot = (uint16_t)i;
            module->submodule_count = (uint16_t)rest;
            for (unsigned k = 0; k < rest; k++) {
                pn_submodule *part = &module->submodules[k];
                part->ident = k + 1;
                part->subslot = (uint16_t)(i == 0 && k > 0 ? 0x7FFF + k : k + 1);
                part->input = i == 0 || k % 3 == 1 ? 0 : 2;
                part->output = i == 0 || k % 3 == 0 ? 0 : 2;
                if (i == 1 && k == 0) {
                    part->parameter_count = 2;
                    part->parameters[0].index = 1;
                    part->parameters[0].length = 64;
                    part->parameters[1].index = 2;
                    part->parameters[1].length = 4;
                }
            }
        }
        for (unsigned i = 0; i < 2; i++) {
            pn_record *record = &plan.records[i];
            record->slot = 1;
            record->subslot = 1;
            record->index = (uint16_t)(i + 1);
            record->length = (uint16_t)(i == 0 ? 64 : 4);
        }
        plan.record_count = 2;
        plan.multiple_write = submodules % 2;
    }
}

/* --- The device --- */

static void work(void)
{
    uint32_t answer;
    for (; op.work != PN_NOTHING; op.work = op.more) {
        CALL(answer, pn_next, &device, &op);
        if (answer != PN_OK)
            fail("pn_next", answer);
        if (op.work == PN_SEND)
            push(&to_controller, op.data, op.length);
        else if (op.work == PN_ERASE)
            memset(sectors[op.sector], 0xFF, PN_SECTOR_SIZE);
        else if (op.work == PN_PROGRAM)
            for (uint32_t i = 0; i < op.length; i++)
                sectors[op.sector][op.place + i] &= op.data[i];
    }
}

static void power(void)
{
    static const uint8_t mac[6] = {2, 0, 0, 0, 0, 1};
    uint32_t answer = pn_plan_station(&plan, &station);
    if (answer != PN_OK)
        fail("pn_plan_station", answer);
    memcpy(station.mac, mac, 6);
    station.instance = 1;
    memset(station.order_id, ' ', sizeof station.order_id);
    memset(station.serial_number, ' ', sizeof station.serial_number);
    station.software_revision[0] = 'V';
    station.without_services = without;
    CALL(answer, pn_make, &device, &station);
    if (answer != PN_OK)
        fail("pn_make", answer);
    CALL(answer, pn_boot, &device, &op, sectors[0], sectors[1]);
    if (answer != PN_OK)
        fail("pn_boot", answer);
}

static void tick(uint32_t units)
{
    uint32_t answer;
    for (op.units = units; op.units != 0;) {
        uint32_t left;
        CALL(answer, pn_tick, &device, &op, op.units);
        if (answer != PN_OK)
            fail("pn_tick", answer);
        left = op.units;
        work();
        op.units = left;
    }
}

static uint32_t frame(const uint8_t *octets, size_t length)
{
    uint32_t answer;
    CALL(answer, pn_frame, &device, &op, octets, length);
    if (answer != PN_OK)
        fail("pn_frame", answer);
    answer = op.note;
    work();
    return answer;
}

/* Everything that a host can read. */
static void look(void)
{
    static pn_settings settings;
    uint32_t answer, number;
    uint8_t iops, status;
    for (uint16_t slot = 0; slot < 3; slot++) {
        CALL(answer, pn_output, &device, &other, slot, 1);
        CALL(answer, pn_provider, &device, &other, slot, 1, &iops, &status);
    }
    CALL(answer, pn_due, &device, &other, &number);
    CALL(answer, pn_conflicts, &device, &other, &number);
    CALL(answer, pn_state, &device, &other);
    CALL(answer, pn_taken, &device, &other, 0);
    CALL(answer, pn_running, &device, &other, &settings);
    CALL(answer, pn_stored, &device, &other, &settings);
    CALL(answer, pn_left, &device, &other, &number);
    if (answer != PN_OK)
        fail("pn_left", answer);
}

/* --- The controller --- */

static int has_started;

static void frames(void)
{
    uint32_t answer;
    for (;;) {
        CALL(answer, pn_controller_next, &controller, &op);
        if (answer != PN_OK)
            fail("pn_controller_next", answer);
        if (op.work != PN_SEND)
            return;
        push(&to_device, op.octets, op.length);
    }
}

static void heard(const uint8_t *octets, size_t length)
{
    uint32_t answer;
    CALL(answer, pn_controller_frame, &controller, &op, octets, length);
    if (answer != PN_OK)
        fail("pn_controller_frame", answer);
    frames();
}

static void controller_tick(uint32_t units)
{
    uint32_t answer;
    for (op.units = units; op.units != 0;) {
        uint32_t left;
        CALL(answer, pn_controller_tick, &controller, &op, op.units);
        if (answer != PN_OK)
            fail("pn_controller_tick", answer);
        left = op.units;
        frames();
        op.units = left;
    }
}

static void controller_look(void)
{
    static pn_neighbour neighbour;
    uint32_t answer, a, b;
    uint8_t iops, status;
    CALL(answer, pn_controller_value, &controller, &other, 1, 1);
    CALL(answer, pn_controller_state, &controller, &other);
    CALL(answer, pn_controller_provider, &controller, &other, 1, 1, &iops, &status);
    CALL(answer, pn_controller_due, &controller, &other, &a);
    CALL(answer, pn_controller_conflicts, &controller, &other, &a);
    CALL(answer, pn_controller_neighbour, &controller, &other, &neighbour);
    CALL(answer, pn_controller_refusal, &controller, &other, &a);
    CALL(answer, pn_controller_refused_record, &controller, &other, &a, &b);
    CALL(answer, pn_controller_answer, &controller, &other, &a);
    CALL(answer, pn_controller_alarm, &controller, &other);
    CALL(answer, pn_controller_report, &controller, &other, 1);
    CALL(answer, pn_controller_diagnoses, &controller, &other, &a, &b);
    CALL(answer, pn_controller_diagnosis, &controller, &other, 0);
    (void)answer;
}

/* All frames that are under way arrive, and one unit of time passes at both ends. */
static void deliver(uint32_t units)
{
    static struct way moved;
    moved = to_device;
    to_device.count = 0;
    for (unsigned i = 0; i < moved.count; i++)
        frame(moved.octets[i], moved.length[i]);
    moved = to_controller;
    to_controller.count = 0;
    for (unsigned i = 0; i < moved.count; i++)
        heard(moved.octets[i], moved.length[i]);
    tick(units);
    controller_tick(units);
}

/* The phase of the controller. */
static uint32_t phase(void)
{
    if (pn_controller_state(&controller, &other) != PN_OK)
        fail("pn_controller_state", 0);
    return other.phase;
}

#define EXCHANGING 7u
#define ENDED 8u

static void until(uint32_t wanted)
{
    for (unsigned i = 0; i < 4000 && phase() != wanted; i++)
        deliver(32);
    if (phase() != wanted)
        fail("the controller's state", phase());
}

static void application(void)
{
    static uint8_t octets[1308];
    uint32_t answer;
    CALL(answer, pn_controller_give, &controller, &op, plan.module_count == 3 ? 2 : 1, plan.module_count == 3 ? 1 : 2, octets, 2);
    CALL(answer, pn_controller_status, &controller, &op, plan.module_count == 3 ? 2 : 1, plan.module_count == 3 ? 1 : 2, 0);
    CALL(answer, pn_input, &device, &op, 1, 1, octets, 2);
    CALL(answer, pn_alarm, &device, &op, 1, 1, octets, 32);
    work();
    for (uint16_t channel = 0; channel < 3; channel++) {
        CALL(answer, pn_diagnosis, &device, &op, 1, 1, channel, 6, 1);
        work();
        for (unsigned i = 0; i < 3; i++)
            deliver(32);
    }
    CALL(answer, pn_controller_read_record, &controller, &op, 0, 1, 0xF840);
    frames();
    for (unsigned i = 0; i < 6; i++)
        deliver(32);
    controller_look();
    CALL(answer, pn_controller_write_record, &controller, &op, 1, 1, 1, octets, 1308);
    frames();
    for (unsigned i = 0; i < 6; i++)
        deliver(32);
    CALL(answer, pn_controller_write_record, &controller, &op, 0, 1, 0xAFF2, octets, 22);
    frames();
    for (unsigned i = 0; i < 6; i++)
        deliver(32);
    look();
    controller_look();
    if (answer != PN_OK)
        fail("the application", answer);
}

/* Makes the plan of 16 modules that has the most submodules, at most so many. */
static void fit(unsigned submodules)
{
    uint32_t answer;
    do {
        describe(submodules);
        CALL(answer, pn_plan_fault, &plan);
    } while (answer != PN_OK && submodules-- > PN_MODULES);
    if (answer != PN_OK)
        fail("pn_plan_fault", answer);
}

static void both(unsigned submodules)
{
    uint32_t answer;
    fit(submodules);
    memset(sectors, 0xFF, sizeof sectors);
    power();
    to_device.count = to_controller.count = 0;
    CALL(answer, pn_controller_start, &controller, &plan, ar, activity);
    if (answer != PN_OK)
        fail("pn_controller_start", answer);
    has_started = 1;
    frames();
    /* The station gets its name, as by a tool: DCP Set, permanent. */
    {
        static const uint8_t set[60] = {2, 0, 0, 0, 0, 1, 2, 0, 0, 0, 0, 2, 0x88, 0x92, 0xFE, 0xFD, 4, 0, 0, 0, 0, 1, 0, 0, 0, 12, 2, 2, 0, 8, 0, 1, 'p', 'u', 'm', 'p', '-', '1'};
        frame(set, sizeof set);
    }
    until(EXCHANGING);
    application();
    for (unsigned i = 0; i < 40; i++)
        deliver(32);
    CALL(answer, pn_controller_stop, &controller, &op);
    frames();
    until(ENDED);
    controller_look();
    look();
}

/* --- The tool --- */

static void tool(void)
{
    static pn_tool who = {.mac = {2, 0, 0, 0, 0, 9}, .address = {192, 168, 0, 9}, .xid = 0x4E41444E};
    static const pn_target target = {.mac = {2, 0, 0, 0, 0, 1}, .address = {192, 168, 0, 2}, .vendor_id = 0x0123, .device_id = 0x0456};
    static uint8_t octets[PN_OP_SIZE];
    static pn_search search;
    static uint8_t number[16];
    uint32_t answer;
    size_t length;
    CALL(answer, pn_tool_ask, &who, &search, &op, (const uint8_t *)"port-003.sw-1", 13);
    length = op.length;
    memcpy(octets, op.octets, length);
    to_controller.count = 0;
    frame(octets, length);
    tick(32000);
    for (unsigned i = 0; i < to_controller.count; i++)
        CALL(answer, pn_tool_heard, &who, &search, to_controller.octets[i], to_controller.length[i]);
    CALL(answer, pn_tool_give, &who, &search, &op, (const uint8_t *)"pump-1", 6);
    if (answer == PN_OK) {
        length = op.length;
        memcpy(octets, op.octets, length);
        to_controller.count = 0;
        frame(octets, length);
        for (unsigned i = 0; i < to_controller.count; i++)
            CALL(answer, pn_tool_given, &who, &search, &op, to_controller.octets[i], to_controller.length[i]);
    } else {
        fail("the tool finds no station", answer);
    }
    for (unsigned i = 0; i < 3; i++) {
        static const uint16_t indices[3] = {0xF840, 0xAFF0, 0xF841};
        number[15] = (uint8_t)(i + 1);
        CALL(answer, pn_tool_ask_record, &who, &target, number, &op, 0, 1, indices[i]);
        length = op.length;
        memcpy(octets, op.octets, length);
        to_controller.count = 0;
        frame(octets, length);
        for (unsigned k = 0; k < to_controller.count; k++)
            CALL(answer, pn_tool_record_in, &who, number, &op, to_controller.octets[k], to_controller.length[k]);
    }
    to_controller.count = 0;
}

/* --- Records --- */

static void put_16(uint8_t *octets, uint32_t number)
{
    octets[0] = (uint8_t)(number >> 8);
    octets[1] = (uint8_t)number;
}

/* The places of the fields of a call without a VLAN tag. */
enum { IP = 14, UDP = IP + 20, CHECKSUM = UDP + 6, RPC = UDP + 8, SEQUENCE = RPC + 64, BLOCK = RPC + 80 + 20, SLOT = BLOCK + 28, SUBSLOT = SLOT + 2, INDEX = SLOT + 6 };

static void sum_up(uint8_t *octets, size_t length)
{
    uint32_t sum = 17 + (uint32_t)(length - UDP);
    put_16(octets + CHECKSUM, 0);
    for (size_t i = IP + 12; i < length; i++)
        sum += i % 2 == 0 ? octets[i] * 256u : octets[i];
    while (sum > 0xFFFF)
        sum = (sum & 0xFFFF) + (sum >> 16);
    put_16(octets + CHECKSUM, sum == 0xFFFF ? 0xFFFF : 0xFFFF - sum);
}

static int is_known(uint32_t index)
{
    return (index & 0xFFF) < 0x60 || (index >= 0x8080 && index < 0x8090) || (index >= 0xAFF0 && index < 0xB000) || index >= 0xF800;
}

static void records(uint32_t stride, uint8_t *octets, size_t length)
{
    static const uint16_t places[][2] = {{0, 1}, {0, 0x8000}, {0, 0x8001}, {1, 1}, {2, 1}};
    static uint32_t sequence = 1000;
    uint32_t served = 0;
    for (uint32_t index = 0; index < 65536; index++)
        for (unsigned i = 0; i < sizeof places / sizeof places[0]; i++) {
            if (!is_known(index) && (i != 0 || index % stride != 0))
                continue;
            put_16(octets + SEQUENCE, ++sequence >> 16);
            put_16(octets + SEQUENCE + 2, sequence);
            put_16(octets + SLOT, places[i][0]);
            put_16(octets + SUBSLOT, places[i][1]);
            put_16(octets + INDEX, index);
            sum_up(octets, length);
            to_controller.count = 0;
            if (frame(octets, length) != PN_DONE || to_controller.count != 1)
                fail("a record has no answer", index);
            /* The status of the answer. */
            served += to_controller.octets[0][RPC + 80] == 0;
        }
    if (served == 0)
        fail("no record was served", 0);
    to_controller.count = 0;
}

/* --- Catalogues --- */

#ifndef BOARD
static void catalogue(const char *path)
{
    static uint8_t text[1 << 16], where[256];
    static pn_plan read;
    FILE *file = fopen(path, "rb");
    size_t length;
    uint32_t answer;
    if (file == NULL)
        fail(path, 0);
    length = fread(text, 1, sizeof text, file);
    fclose(file);
    CALL(answer, pn_plan_read, &read, text, length);
    CALL(answer, pn_plan_where, text, length, (char *)where, sizeof where);
    (void)answer;
}
#else
static void catalogue(const char *path)
{
    fail(path, 0);
}
#endif

/* --- Lines --- */

static size_t read_hex(const char *text, uint8_t *octets, size_t most)
{
    size_t length = 0;
    for (; length < most; text += 2) {
        char pair[3] = {text[0], text[0] == '\0' ? '\0' : text[1], '\0'}, *end;
        unsigned long octet = strtoul(pair, &end, 16);
        if (pair[0] == '\0' || *end != '\0' || end != pair + 2)
            break;
        octets[length++] = (uint8_t)octet;
    }
    return length;
}

static void play(char *text)
{
    static uint8_t octets[LONGEST / 2];
    unsigned long at[5] = {0};
    char word[12] = "", *rest = text;
    uint32_t answer = PN_OK;
    size_t length = 0;
    for (size_t i = 0; *rest != '\0' && *rest != ' '; rest++)
        if (i < sizeof word - 1)
            word[i++] = *rest;
    for (unsigned i = 0; i < 5 && *rest == ' '; i++) {
        char *end;
        at[i] = strtoul(rest, &end, 10);
        length = read_hex(rest + 1, octets, sizeof octets);
        if (end == rest || (*end != ' ' && *end != '\0'))
            break;
        rest = end;
    }
    if (strcmp(word, "power") == 0) {
        power();
    } else if (strcmp(word, "station") == 0) {
        memset(sectors, 0xFF, sizeof sectors);
        if (at[0] == 0)
            describe(0);
        else
            fit((unsigned)at[0]);
        power();
    } else if (strcmp(word, "without") == 0) {
        without = 1;
    } else if (strcmp(word, "with") == 0) {
        without = 0;
    } else if (strcmp(word, "frame") == 0) {
        to_controller.count = 0;
        frame(octets, length);
        to_controller.count = 0;
    } else if (strcmp(word, "heard") == 0) {
        if (has_started)
            heard(octets, length);
        to_device.count = 0;
    } else if (strcmp(word, "tick") == 0) {
        tick((uint32_t)at[0]);
        to_controller.count = 0;
    } else if (strcmp(word, "input") == 0) {
        CALL(answer, pn_input, &device, &op, (uint16_t)at[0], (uint16_t)at[1], octets, length);
    } else if (strcmp(word, "alarm") == 0) {
        CALL(answer, pn_alarm, &device, &op, (uint16_t)at[0], (uint16_t)at[1], octets, length);
        work();
    } else if (strcmp(word, "status") == 0) {
        CALL(answer, pn_status, &device, &op, (uint16_t)at[0], (uint16_t)at[1], at[2] != 0);
    } else if (strcmp(word, "diagnosis") == 0) {
        CALL(answer, pn_diagnosis, &device, &op, (uint16_t)at[0], (uint16_t)at[1], (uint16_t)at[2], (uint16_t)at[3], at[4] != 0);
        work();
    } else if (strcmp(word, "ready") == 0) {
        CALL(answer, pn_ready, &device, &op);
        work();
    } else if (strcmp(word, "link") == 0) {
        static const pn_link link = {3, 0x0400, 16};
        CALL(answer, pn_tell_link, &device, &op, at[0] != 0, &link);
    } else if (strcmp(word, "lose") == 0) {
        CALL(answer, pn_lose, &device, &op);
    } else if (strcmp(word, "records") == 0) {
        records((uint32_t)at[0], octets, length);
    } else if (strcmp(word, "both") == 0) {
        both((unsigned)at[0]);
    } else if (strcmp(word, "tool") == 0) {
        tool();
    } else if (strcmp(word, "catalogue") == 0 && *rest == ' ') {
        catalogue(rest + 1);
    } else {
        fail("this line is none", 0);
    }
    /* What the device refuses is measured as what it takes: the scripts say things too early and too late. */
    if (answer != PN_OK && answer != PN_REFUSED)
        fail(word, answer);
}

static int run(void)
{
    static char text[LONGEST];
    memset(sectors, 0xFF, sizeof sectors);
    describe(0);
    power();
    while (fgets(text, sizeof text, stdin) != NULL) {
        line_number++;
        text[strcspn(text, "\r\n")] = '\0';
        if (text[0] == '\0' || text[0] == '#')
            continue;
        play(text);
        if (line_number % 8 == 0 && strcmp(text, "lose") != 0)
            look();
    }
    for (unsigned i = 0; i < KINDS; i++)
        printf("%s %lu %lu\n", names[i], (unsigned long)deepest[i].octets, deepest[i].line);
    fflush(stdout);
    return 0;
}

#ifdef BOARD
int main(void)
{
    initialise_monitor_handles();
    if (freopen("chip.txt", "r", stdin) == NULL) /* in QEMU's folder */
        return 1;
    return run();
}
#else
int main(void)
{
    return run();
}
#endif
