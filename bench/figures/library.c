/* Figures of the library through its header, for bench/figures/library.py: what is to be counted by callgrind in an exchange that the lines
 * on standard input set up: N times a unit of time (`unit`; without a relation `alone`, and `addressed` in the first two seconds of an address),
 * 32 units (`leap`), a second without a relation (`second`), a unit with the frame that it sends (`sent`), a cyclic frame (`cyclic`), the
 * millisecond of an exchange (`cycle`), the same with an output read and an input set (`values`), or the frame of the line `turn` at a device
 * without a relation: the same each time (`again`), or a call with the next sequence number each time (`call`). Callgrind counts what is
 * executed within pn_step and pn_fetch, and not what this program does. */
#include "nandutable.h"
#include <stdio.h>
#include <stdlib.h>

static pn_device device;
static pn_op op;
static uint8_t erased[PN_SECTOR_SIZE];

static pn_station station = {
    .mac = {2, 0, 0, 0, 0, 1}, .vendor_id = 0x0123, .device_id = 0x0456, .instance = 1, .station_type_length = 7,
    .station_type = "pn-demo", .order_id = "                    ", .serial_number = "                ",
    .software_revision = {'V', 0, 0, 0}, .module_count = 3,
    .modules = {{.ident = 1, .slot = 0, .submodule_count = 3,
                 .submodules = {{.ident = 1, .subslot = 1}, {.ident = 2, .subslot = 0x8000}, {.ident = 3, .subslot = 0x8001}}},
                {.ident = 16, .slot = 1, .submodule_count = 1, .submodules = {{.ident = 16, .subslot = 1, .input = 2}}},
                {.ident = 32, .slot = 2, .submodule_count = 1, .submodules = {{.ident = 32, .subslot = 1, .output = 2}}}}};

/* The octets of a frame or of an input. */
struct line {
    uint8_t octets[2000];
    size_t length;
};

/* The last cyclic frame of the lines, and the frame of the line `turn`. */
static struct line cyclic, turn;

static int is_cyclic(const struct line *line)
{
    const uint8_t *type = line->octets + (line->octets[12] == 0x81 ? 16 : 12);
    return line->length >= 60 && type[0] == 0x88 && type[1] == 0x92 && type[2] >= 0x80 && type[2] < 0xF8;
}

static void start(void)
{
    memset(erased, 0xFF, sizeof erased);
    pn_make(&device, &station);
    pn_boot(&device, &op, erased, erased);
}

static size_t read_hex(const char *text, uint8_t *octets, size_t most)
{
    size_t length = 0;
    unsigned octet;
    for (; length < most && sscanf(text, "%2x", &octet) == 1; text += 2)
        octets[length++] = (uint8_t)octet;
    return length;
}

/* --- What is counted --- */

static void must(int is_so, int status)
{
    if (!is_so)
        exit(status);
}

/* A host that drops what the device sends. */
static uint64_t sent;

static int drop(void *context, const uint8_t *octets, uint32_t length)
{
    (void)context, (void)octets, (void)length;
    sent++;
    return 0;
}

static int program(void *context, uint32_t sector, uint32_t place, const uint8_t *octets, uint32_t length)
{
    (void)context, (void)sector, (void)place, (void)octets, (void)length;
    return 0;
}

static int erase(void *context, uint32_t sector)
{
    (void)context, (void)sector;
    return 0;
}

static const pn_host host = {NULL, program, erase, drop};

static void carry_out(void)
{
    must(pn_carry_out(&device, &op, &host) == PN_OK, 3);
}

static void units_pass(uint32_t units)
{
    while (units != 0) {
        must(pn_tick(&device, &op, units) == PN_OK, 4);
        units = op.units;
        carry_out();
    }
}

/* The cyclic frame comes again, a number of units later, and is accepted. */
static void next_cyclic(unsigned units)
{
    uint8_t *counter = cyclic.octets + cyclic.length - 4;
    unsigned number = counter[0] * 256u + counter[1] + units;
    counter[0] = (uint8_t)(number >> 8);
    counter[1] = (uint8_t)number;
    must(pn_frame(&device, &op, cyclic.octets, cyclic.length) == PN_OK && op.note == PN_DONE, 5);
    carry_out();
}

/* The application reads the output of slot 2, and sets the input of slot 1 to another value. */
static void values(uint8_t number)
{
    static uint8_t value[PN_FRAME_SIZE];
    size_t length = station.modules[1].submodules[0].input;
    must(pn_output(&device, &op, 2, 1) == PN_OK && op.length == length && memcmp(op.octets, cyclic.octets + 20, length) == 0, 15);
    memset(value, number, length);
    must(pn_input(&device, &op, 1, 1, value, length) == PN_OK && op.note == PN_DONE, 16);
    carry_out();
}

/* The frame of the line `turn` comes again. */
static void same_again(void)
{
    must(pn_frame(&device, &op, turn.octets, turn.length) == PN_OK, 13);
    carry_out();
}

/* The call of the line `turn` comes again with the next sequence number: one more, and its checksum one less (RFC 1624). */
static void next_call(void)
{
    uint8_t *sequence = turn.octets + 108, *sum = turn.octets + 40;
    unsigned number = sequence[0] * 256u + sequence[1] + 1, total = (~(sum[0] * 256u + sum[1]) & 0xFFFF) + 1;
    unsigned checksum = ~((total & 0xFFFF) + (total >> 16)) & 0xFFFF;
    sequence[0] = (uint8_t)(number >> 8);
    sequence[1] = (uint8_t)number;
    sum[0] = (uint8_t)(checksum >> 8);
    sum[1] = (uint8_t)checksum;
    same_again();
}

/* The lines of bench/figures/exchange.py up to the exchange: frames, and the input of slot 1. */
static void lines(void)
{
    static char text[70000];
    static struct line line;
    while (fgets(text, sizeof text, stdin) != NULL) {
        if (strncmp(text, "frame ", 6) == 0) {
            line.length = read_hex(text + 6, line.octets, sizeof line.octets);
            must(pn_frame(&device, &op, line.octets, line.length) == PN_OK, 6);
            if (is_cyclic(&line))
                cyclic = line;
        } else if (strncmp(text, "turn ", 5) == 0) {
            turn.length = read_hex(text + 5, turn.octets, sizeof turn.octets);
            continue;
        } else if (strncmp(text, "input 1 ", 8) == 0) {
            line.length = read_hex(text + 8, line.octets, sizeof line.octets);
            must(pn_input(&device, &op, 1, 1, line.octets, line.length) == PN_OK && op.note == PN_DONE, 7);
        }
        carry_out();
    }
    sent = 0;
}

static void exchange(void)
{
    lines();
    must(pn_state(&device, &op) == PN_OK && op.phase == PN_EXCHANGING && cyclic.length != 0, 8);
}

/* A device without a relation, whose address the lines have set: in the first two seconds of it the second announcement is still to be
 * sent, after them LLDP alone. */
static void alone(int is_settled)
{
    lines();
    must(pn_state(&device, &op) == PN_OK && op.phase == PN_NONE, 11);
    units_pass(is_settled ? 66000 : 10);
    must(sent == (is_settled ? 3 : 2), 12); /* LLDP at the start, and announcements */
    sent = 0;
}

/* Lets time pass until the services have announced the address twice, 64,000 units apart. */
static void announce(void)
{
    for (unsigned thousands = 0; thousands < 66; thousands++) {
        next_cyclic(1000);
        units_pass(1000);
    }
    sent = 0;
}

static void count(const char *what, unsigned long turns)
{
    for (unsigned long i = 0; i < turns; i++) {
        if (strcmp(what, "unit") == 0 || strcmp(what, "alone") == 0 || strcmp(what, "addressed") == 0) {
            must(pn_tick(&device, &op, 1) == PN_OK && op.work == PN_NOTHING, 9);
        } else if (strcmp(what, "leap") == 0) {
            must(pn_tick(&device, &op, 32) == PN_OK && op.work == PN_NOTHING, 10);
        } else if (strcmp(what, "sent") == 0) {
            units_pass(1);
        } else if (strcmp(what, "second") == 0) {
            units_pass(32000);
        } else if (strcmp(what, "cyclic") == 0) {
            next_cyclic(32);
        } else if (strcmp(what, "again") == 0) {
            same_again();
        } else if (strcmp(what, "call") == 0) {
            next_call();
        } else {
            next_cyclic(32);
            if (strcmp(what, "values") == 0)
                values((uint8_t)i);
            units_pass(32);
        }
    }
    printf("%lu\n", (unsigned long)sent);
}

int main(int words, char **word)
{
    /* WHAT TURNS INTERVAL OCTETS: the units of an interval, and the octets of data of a frame. */
    must(words == 5, 2);
    uint32_t interval = (uint32_t)strtoul(word[3], NULL, 10);
    station.modules[1].submodules[0].input = station.modules[2].submodules[0].output = (uint16_t)(strtoul(word[4], NULL, 10) - 3);
    memcpy(station.order_id, &interval, sizeof interval); /* for library_plain.c */
    start();
    int is_frame = strcmp(word[1], "again") == 0 || strcmp(word[1], "call") == 0;
    if (is_frame || strcmp(word[1], "alone") == 0 || strcmp(word[1], "addressed") == 0 || strcmp(word[1], "second") == 0) {
        alone(strcmp(word[1], "addressed") != 0);
        must(!is_frame || turn.length != 0, 14);
    } else {
        exchange();
        announce();
    }
    count(word[1], strtoul(word[2], NULL, 10));
    return 0;
}
