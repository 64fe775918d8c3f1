/* A device on a Cortex-M4, with its flash in RAM. It starts blank and answers an Identify; it gets a name, loses power, and answers an
 * Identify by that name. Each answer is compared with the expected octets. `tools/release/cortex-m` builds it and runs it under QEMU. */
#include "board.h"
#include "nandutable.h"

static uint8_t chip[2][PN_SECTOR_SIZE]; /* a product has its flash here */
static uint8_t sent[PN_FRAME_SIZE];
static uint32_t sent_length, frames, flash_calls;
static pn_device device;
static pn_op op;

static int program(void *context, uint32_t sector, uint32_t place, const uint8_t *octets, uint32_t length)
{
    (void)context;
    for (uint32_t i = 0; i < length; i++)
        chip[sector][place + i] &= octets[i];
    flash_calls++;
    return 0;
}

static int erase(void *context, uint32_t sector)
{
    (void)context;
    memset(chip[sector], 0xFF, PN_SECTOR_SIZE);
    flash_calls++;
    return 0;
}

static int transmit(void *context, const uint8_t *octets, uint32_t length)
{
    (void)context;
    memcpy(sent, octets, length);
    sent_length = length;
    frames++;
    return 0;
}

static const pn_host host = {NULL, program, erase, transmit};

/* Its access point, and a module with two octets of output. */
static const pn_station station = {
    .mac = {0x02, 0, 0, 0, 0, 1}, .vendor_id = 0x0123, .device_id = 0x0456, .instance = 1,
    .station_type_length = 7, .station_type = "pn-demo", .order_id = "pn-demo-1           ",
    .serial_number = "1               ", .software_revision = {'V', 1, 0, 0}, .module_count = 2,
    .modules = {{.ident = 1, .slot = 0, .submodule_count = 2, .submodules = {{.ident = 1, .subslot = 1}, {.ident = 2, .subslot = 0x8000}}},
                {.ident = 32, .slot = 1, .submodule_count = 1, .submodules = {{.ident = 32, .subslot = 1, .output = 2}}}}};

/* DCP Identify of all stations, with the Xid 1. */
static const uint8_t identify_all[] = {0x01, 0x0E, 0xCF, 0, 0, 0, 0x02, 0, 0, 0, 0, 2, 0x88, 0x92, 0xFE, 0xFE, 5, 0, 0, 0, 0, 1, 0, 1, 0, 4,
                                       0xFF, 0xFF, 0, 0};

/* Its answer: the type of station `pn-demo`, no name, VendorID 0x0123 and DeviceID 0x0456, the role of an IO device, the options that it
 * knows, the instance 1, and no address. */
static const uint8_t blank[] = {
    0x02, 0, 0, 0, 0, 2, 0x02, 0, 0, 0, 0, 1, 0x88, 0x92, 0xFE, 0xFF, 5, 1, 0, 0, 0, 1, 0, 0, 0, 94,
    2, 1, 0, 9, 0, 0, 'p', 'n', '-', 'd', 'e', 'm', 'o', 0,
    2, 2, 0, 2, 0, 0,
    2, 3, 0, 6, 0, 0, 0x01, 0x23, 0x04, 0x56,
    2, 4, 0, 4, 0, 0, 1, 0,
    2, 5, 0, 26, 0, 0, 1, 1, 1, 2, 2, 1, 2, 2, 2, 3, 2, 4, 2, 5, 2, 7, 5, 3, 5, 4, 5, 5, 5, 6,
    2, 7, 0, 4, 0, 0, 0, 1,
    1, 2, 0, 14, 0, 0, 0, 0, 0, 0, 0, 0, 0, 0, 0, 0, 0, 0};

/* A DCP Set with the Xid 2: the permanent name `pump-1`. Its answer: no error for that block, and zeros up to the shortest frame. */
static const uint8_t set_name[] = {0x02, 0, 0, 0, 0, 1, 0x02, 0, 0, 0, 0, 2, 0x88, 0x92, 0xFE, 0xFD, 4, 0, 0, 0, 0, 2, 0, 0, 0, 12,
                                   2, 2, 0, 8, 0, 1, 'p', 'u', 'm', 'p', '-', '1'};
static const uint8_t is_set[60] = {0x02, 0, 0, 0, 0, 2, 0x02, 0, 0, 0, 0, 1, 0x88, 0x92, 0xFE, 0xFD, 4, 1, 0, 0, 0, 2, 0, 0, 0, 8,
                                   5, 4, 0, 3, 2, 2, 0, 0};

/* DCP Identify of the station `pump-1`, with the Xid 3, and its answer. */
static const uint8_t identify_name[] = {0x01, 0x0E, 0xCF, 0, 0, 0, 0x02, 0, 0, 0, 0, 2, 0x88, 0x92, 0xFE, 0xFE, 5, 0, 0, 0, 0, 3, 0, 1, 0, 10,
                                        2, 2, 0, 6, 'p', 'u', 'm', 'p', '-', '1'};
static const uint8_t named[] = {
    0x02, 0, 0, 0, 0, 2, 0x02, 0, 0, 0, 0, 1, 0x88, 0x92, 0xFE, 0xFF, 5, 1, 0, 0, 0, 3, 0, 0, 0, 100,
    2, 1, 0, 9, 0, 0, 'p', 'n', '-', 'd', 'e', 'm', 'o', 0,
    2, 2, 0, 8, 0, 0, 'p', 'u', 'm', 'p', '-', '1',
    2, 3, 0, 6, 0, 0, 0x01, 0x23, 0x04, 0x56,
    2, 4, 0, 4, 0, 0, 1, 0,
    2, 5, 0, 26, 0, 0, 1, 1, 1, 2, 2, 1, 2, 2, 2, 3, 2, 4, 2, 5, 2, 7, 5, 3, 5, 4, 5, 5, 5, 6,
    2, 7, 0, 4, 0, 0, 0, 1,
    1, 2, 0, 14, 0, 0, 0, 0, 0, 0, 0, 0, 0, 0, 0, 0, 0, 0};

/* LLDP of the station, which its services send in the first unit of time: to the group of the nearest bridge, with its name as ChassisID. */
static const uint8_t announced[] = {0x01, 0x80, 0xC2, 0, 0, 0x0E, 0x02, 0, 0, 0, 0, 1, 0x88, 0xCC, 0x02, 7, 7, 'p', 'u', 'm', 'p', '-', '1'};

static void say_depth(const char *call, uint32_t depth)
{
    board_say("deepest stack of ");
    board_say(call);
    board_say(": ");
    board_say_number(depth);
    board_say(" octets\n");
}

/* Ends the program if something is not as expected. */
static void must(const char *what, int is_so)
{
    board_say(what);
    board_say(is_so ? ": as expected\n" : ": WRONG\n");
    if (!is_so)
        board_end(1);
}

/* A start from what the chip contains. */
static void start(void)
{
    uint32_t made, depth;
    board_paint();
    made = pn_make(&device, &station);
    depth = board_depth();
    must("pn_make", made == PN_OK);
    say_depth("pn_make", depth);
    board_paint();
    made = pn_boot(&device, &op, chip[0], chip[1]);
    depth = board_depth();
    must("pn_boot", made == PN_OK);
    say_depth("pn_boot", depth);
}

/* Hands in a frame, and compares the one frame that the device sends. */
static void answers(const char *what, const uint8_t *frame, uint32_t length, const uint8_t *wanted, uint32_t wanted_length)
{
    uint32_t answer, depth;
    frames = 0;
    board_paint();
    answer = pn_frame(&device, &op, frame, length);
    depth = board_depth();
    must("pn_frame", answer == PN_OK && op.note == PN_DONE);
    say_depth("pn_frame", depth);
    must("pn_carry_out", pn_carry_out(&device, &op, &host) == PN_OK);
    must(what, frames == 1 && sent_length == wanted_length && memcmp(sent, wanted, wanted_length) == 0);
}

int main(void)
{
    uint32_t answer, depth;
    memset(chip, 0xFF, sizeof chip);
    start();
    answers("the answer to an Identify", identify_all, sizeof identify_all, blank, sizeof blank);
    must("no call of the flash", flash_calls == 0);
    answers("the answer to a Set", set_name, sizeof set_name, is_set, sizeof is_set);
    must("calls of the flash", flash_calls != 0);
    start(); /* power is lost and returns */
    answers("the answer to an Identify by the name", identify_name, sizeof identify_name, named, sizeof named);
    board_paint();
    answer = pn_tick(&device, &op, 32000);
    depth = board_depth();
    must("the first unit of time", answer == PN_OK && op.units == 31999);
    say_depth("pn_tick", depth);
    frames = 0;
    must("pn_carry_out", pn_carry_out(&device, &op, &host) == PN_OK);
    must("LLDP", frames == 1 && sent_length > sizeof announced && memcmp(sent, announced, sizeof announced) == 0);
    must("a second", pn_tick(&device, &op, 31999) == PN_OK && op.units == 0);
    return 0;
}
