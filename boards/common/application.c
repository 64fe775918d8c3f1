/* The application: a valve whose position is set and read, a pressure sensor that may fail, and a purge valve.
 *
 *     slot 1, the drive:  input the position, output the wanted position (two octets each, tenths of a percent)
 *                         record 1: the safe position, and how far the valve moves in a millisecond (two octets each)
 *     slot 2, the gauge:  input the pressure (two octets, millibar), output purge (one octet, 0 or 1)
 *                         record 1: the pressure from which on an alarm is raised (two octets)
 *
 * It keeps to these rules, which are worth copying:
 *   - an output is used only while host_output gives it; at every other time the plant goes to its safe position,
 *   - parameters are used when all of them have come, and only then does ApplicationReady tell the controller so,
 *   - a sensor that fails is reported three times: its status is bad, a diagnosis appears, and its last value stays,
 *   - what the device forgets at a start is said again: the status and the diagnosis,
 *   - an alarm that the controller has not acknowledged before the relation ended is raised again. */
#include "application.h"
#include "console.h"
#include "host.h"
#include "plant.h"

#define DRIVE 1u
#define GAUGE 2u
#define SENSOR_CHANNEL 1u
#define LINE_BREAK 6u /* a ChannelErrorType */
#define UNITS_OF_STEP 32u /* a millisecond */
#define SLOW_STEP 320u

const pn_station application_station = {
    .mac = {0x02, 0, 0, 0, 0, 1}, /* a product reads its own from its factory data */
    .vendor_id = 0x0123, .device_id = 0x0457, .instance = 1, .hardware_revision = 1,
    .station_type_length = 8, .station_type = "pn-valve",
    .order_id = "ACME VALVE 1/10     ", .serial_number = "2026-000001     ", .software_revision = {'V', 1, 0, 0},
    .smallest_interval = 32,   /* 1 ms */
    .inputs_begin_bad = 1,     /* until the first value */
    .ready_by_application = 1, /* ready when the parameters are in use */
    .only_own_controller = 1,  /* nobody else keeps the relation */
    .records_passed_on = 1,    /* a controller may write parameters for months */
    .numbers_go_round = 1,     /* a late frame of an earlier relation is refused; a product that counts its starts has `first_number` too */
    .reads_not_kept = 1,       /* nobody else takes the places of the controller's stored answers */
    .asks_own_first = 1,       /* nor, in a product with records of its own, that of its questions */
    .module_count = 3,
    .modules = {
        {.ident = 1, .slot = 0, .submodule_count = 3,
         .submodules = {{.ident = 1, .subslot = 1}, {.ident = 2, .subslot = 0x8000}, {.ident = 3, .subslot = 0x8001}}},
        {.ident = 48, .slot = DRIVE, .submodule_count = 1,
         .submodules = {{.ident = 48, .subslot = 1, .input = 2, .output = 2, .parameter_count = 1, .parameters = {{.index = 1, .length = 4}}}}},
        {.ident = 49, .slot = GAUGE, .submodule_count = 1,
         .submodules = {{.ident = 49, .subslot = 1, .input = 2, .output = 1, .parameter_count = 1, .parameters = {{.index = 1, .length = 2}}}}},
    },
};

/* Values of the records. */
struct parameters {
    uint16_t safe_position;
    uint16_t speed;
    uint16_t alarm_from;
};

#define DEFAULTS {.safe_position = 0, .speed = 1, .alarm_from = 3000}
static const struct parameters defaults = DEFAULTS;
static struct parameters used = DEFAULTS;   /* those in use */
static struct parameters coming = DEFAULTS; /* those of the start-up that is going on */
static int has_all;                         /* whether the parameters of this relation have ended */
static int is_ready_due;                    /* they are in use, and pn_ready was not called yet */
static uint16_t pressure;                   /* the last one that the sensor gave */
static int is_told_bad;                     /* what the device knows of the sensor */
static int is_told_high;                    /* an alarm was raised since the pressure was low */

static uint16_t read16(const uint8_t *octets)
{
    return (uint16_t)(octets[0] << 8 | octets[1]);
}

static int give16(uint16_t slot, uint16_t value)
{
    const uint8_t octets[2] = {(uint8_t)(value >> 8), (uint8_t)value};
    return host_input(slot, 1, octets, sizeof octets);
}

void application_starts(void)
{
    is_told_bad = is_told_high = 0;
    application_relation_ends();
}

void application_relation_ends(void)
{
    coming = defaults;
    has_all = is_ready_due = 0;
}

/* The device accepts only the records that the station lists, each with its length. */
void application_record(uint32_t slot, uint32_t subslot, uint32_t index, const uint8_t *octets, uint32_t length)
{
    (void)subslot, (void)index, (void)length;
    if (slot == DRIVE) {
        coming.safe_position = read16(octets) < PLANT_OPEN ? read16(octets) : PLANT_OPEN;
        coming.speed = read16(octets + 2);
    } else {
        coming.alarm_from = read16(octets);
    }
    if (has_all)
        used = coming;
}

void application_parameters_end(void)
{
    used = coming;
    has_all = is_ready_due = 1;
}

void application_was_reset(void)
{
    console_say("reset\n");
    used = defaults;
}

/* The drive, in each millisecond: the wanted position while there is one, otherwise the safe one. */
static void step_drive(uint32_t units)
{
    const uint8_t *wanted = host_output(DRIVE, 1, 2);
    uint16_t position = wanted != NULL ? read16(wanted) : used.safe_position;
    plant_drive(position, (uint16_t)(used.speed * units / UNITS_OF_STEP));
    give16(DRIVE, plant_position());
}

/* The gauge. Its value stays when the sensor fails: the controller sees that it is bad. */
static void step_gauge(void)
{
    int is_bad = plant_pressure(&pressure) != 0;
    give16(GAUGE, pressure);
    if (is_bad != is_told_bad) {
        console_say(is_bad ? "sensor broken\n" : "sensor good\n");
        host_status(GAUGE, 1, !is_bad);
        host_diagnosis(GAUGE, 1, SENSOR_CHANNEL, LINE_BREAK, is_bad);
        is_told_bad = is_bad;
    }
    if (!is_bad && pressure < used.alarm_from)
        is_told_high = 0;
}

/* A process alarm once the pressure is high. The device refuses it while no data is exchanged, or another one is active: then it is tried again. */
static void step_alarm(void)
{
    const uint8_t octets[2] = {(uint8_t)(pressure >> 8), (uint8_t)pressure};
    if (pressure >= used.alarm_from && !is_told_high && !is_told_bad)
        is_told_high = host_alarm(GAUGE, 1, octets, sizeof octets);
}

void application_alarm_is_acknowledged(uint32_t status)
{
    console_say(status == 0 ? "alarm acknowledged\n" : "alarm refused\n");
}

/* Nobody knows whether the controller handled it: it is raised again in the next relation, if the pressure is still high. */
void application_alarm_is_given_up(void)
{
    console_say("alarm given up\n");
    is_told_high = 0;
}

/* What is slow: the gauge, the purge valve and the button, each ten milliseconds. */
static void step_slowly(void)
{
    const uint8_t *purge;
    plant_step();
    if (plant_button()) {
        console_say("button\n");
        host_reset();
    }
    step_gauge();
    step_alarm();
    purge = host_output(GAUGE, 1, 1);
    plant_purge(purge != NULL && purge[0] != 0);
}

void application_step(uint32_t units)
{
    static uint32_t age;
    if (is_ready_due)
        is_ready_due = !host_ready();
    step_drive(units);
    age += units;
    if (age >= SLOW_STEP) {
        step_slowly();
        age = 0;
    }
}
