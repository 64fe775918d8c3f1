/* A complete host: a device over a chip of two sectors in memory. It gets a name, loses power, and still has its name.
 * cc -std=c11 example.c $(pkg-config --cflags --libs nandutable) */
#include "nandutable.h"
#include <stdio.h>

static uint8_t chip[2][PN_SECTOR_SIZE]; /* a product has its flash here */
static pn_device device;
static pn_op op;

static int program(void *context, uint32_t sector, uint32_t place, const uint8_t *octets, uint32_t length)
{
    (void)context;
    for (uint32_t i = 0; i < length; i++)
        chip[sector][place + i] &= octets[i];
    return 0;
}

static int erase(void *context, uint32_t sector)
{
    (void)context;
    memset(chip[sector], 0xFF, PN_SECTOR_SIZE);
    return 0;
}

static int transmit(void *context, const uint8_t *octets, uint32_t length)
{
    (void)context;
    printf("sends %u octets, FrameID %02X%02X\n", (unsigned)length, octets[14], octets[15]);
    return 0;
}

static const pn_host host = {NULL, program, erase, transmit};

/* Its access point, and a module with two octets of output. */
static const pn_station station = {
    .mac = {0x02, 0, 0, 0, 0, 1}, .vendor_id = 0x0123, .device_id = 0x0456, .instance = 1,
    .station_type_length = 7, .station_type = "pn-demo", .order_id = "pn-demo-1           ",
    .serial_number = "1               ", .software_revision = {'V', 1, 0, 0}, .module_count = 2,
    .modules = {{.ident = 1, .slot = 0, .submodule_count = 2, .submodules = {{.ident = 1, .subslot = 1}, {.ident = 2, .subslot = 0x8000}}},
                {.ident = 32, .slot = 1, .submodule_count = 1, .submodules = {{.ident = 32, .subslot = 1, .output = 2}}}}};

/* A DCP Set: the permanent name `pump-1`. */
static const uint8_t set[] = {0x02, 0, 0, 0, 0, 1, 0x02, 0, 0, 0, 0, 2, 0x88, 0x92, 0xFE, 0xFD, 4, 0, 0, 0, 0, 1, 0, 0, 0, 12,
                              2, 2, 0, 8, 0, 1, 'p', 'u', 'm', 'p', '-', '1'};

static int start(void)
{
    pn_settings settings;
    if (pn_make(&device, &station) != PN_OK || pn_boot(&device, &op, chip[0], chip[1]) != PN_OK)
        return 1;
    if (pn_running(&device, &op, &settings) != PN_OK)
        return 1;
    printf("starts with the name '%.*s'\n", (int)settings.name_length, (const char *)settings.name);
    return 0;
}

int main(void)
{
    memset(chip, 0xFF, sizeof chip);
    if (start() != 0 || pn_frame(&device, &op, set, sizeof set) != PN_OK || op.note != PN_DONE)
        return 1;
    if (pn_carry_out(&device, &op, &host) != PN_OK)
        return 1;
    return start(); /* power is lost and returns */
}
