/* Each misuse that the header names returns its number, and changes nothing. */
#include "nandutable.h"
#include <stdio.h>
#include <stdlib.h>

static pn_device device, before;
static pn_op op;
static pn_station station, bent;
static pn_submodule plugged;
static pn_settings settings;
static pn_watch watch;
static uint32_t left;
static uint8_t erased[PN_SECTOR_SIZE], foreign[PN_SECTOR_SIZE], octets[2000];
static unsigned count;

static void wants(const char *what, uint32_t answer, uint32_t wanted)
{
    count++;
    if (answer != wanted || memcmp(&device, &before, sizeof device) != 0) {
        printf("%s: answers %u, and should %u; the device is %s\n", what, (unsigned)answer, (unsigned)wanted,
               memcmp(&device, &before, sizeof device) != 0 ? "changed" : "as it was");
        exit(1);
    }
}

static void keep(uint32_t answer)
{
    if (answer != PN_OK) {
        printf("answers %u, and should be carried out\n", (unsigned)answer);
        exit(1);
    }
    memcpy(&before, &device, sizeof device);
}

/* Each operation, and some that do not exist, directly to the library: one that does nothing leaves the whole operation unchanged, but for the
 * reason why the device refused it. */
static void ask_all(const char *when)
{
    static pn_op asked, told;
    for (uint32_t what = 0; what < 34; what++) {
        uint32_t answer;
        memset(&asked, 0xA5, sizeof asked);
        asked.what = what, asked.units = 5;
        told = asked;
        memcpy(&device, &before, sizeof device);
        answer = pn_step(device.room, &told, octets, 0);
        if (answer == PN_REFUSED)
            asked.reason = told.reason;
        if (answer != PN_OK && memcmp(&asked, &told, sizeof asked) != 0) {
            printf("%s: operation %u is refused and writes into the operation\n", when, (unsigned)what);
            exit(1);
        }
    }
    memcpy(&device, &before, sizeof device);
}

static const uint8_t set[] = {0x02, 0, 0, 0, 0, 1, 0x02, 0, 0, 0, 0, 2, 0x88, 0x92, 0xFE, 0xFD, 4, 0, 0, 0, 0, 1, 0, 0, 0, 12,
                              2, 2, 0, 8, 0, 1, 'p', 'u', 'm', 'p', '-', '1'};

/* The same request with another name. */
static const uint8_t reset[] = {0x02, 0, 0, 0, 0, 1, 0x02, 0, 0, 0, 0, 2, 0x88, 0x92, 0xFE, 0xFD, 4, 0, 0, 0, 0, 1, 0, 0, 0, 12,
                                2, 2, 0, 8, 0, 1, 'p', 'u', 'm', 'p', '-', '2'};

static unsigned sent;

static int fails_program(void *context, uint32_t sector, uint32_t place, const uint8_t *given, uint32_t length)
{
    (void)context, (void)sector, (void)place, (void)given, (void)length;
    return 1;
}

static int fails_erase(void *context, uint32_t sector)
{
    (void)context, (void)sector;
    return 1;
}

static int sends(void *context, const uint8_t *given, uint32_t length)
{
    (void)context, (void)given, (void)length;
    sent++;
    return 0;
}

static const pn_host failing = {NULL, fails_program, fails_erase, sends};

/* The station again, with an access point and two modules. */
static void bend_again(void)
{
    bent = station;
    bent.module_count = 3;
    for (uint16_t i = 0; i < 3; i++) {
        pn_module *module = &bent.modules[i];
        module->ident = i + 1u;
        module->slot = i;
        module->submodule_count = 2;
        for (uint16_t k = 0; k < 2; k++) {
            module->submodules[k].ident = k + 1u;
            module->submodules[k].subslot = (uint16_t)(k + 1);
        }
    }
    bent.modules[1].submodules[0].parameter_count = 2;
    bent.modules[1].submodules[0].parameters[0].index = 1;
    bent.modules[1].submodules[0].parameters[0].length = 1;
    bent.modules[1].submodules[0].parameters[1].index = 32767;
    bent.modules[1].submodules[0].parameters[1].length = 64;
}

static void refuses(const char *what, uint32_t wanted)
{
    wants(what, pn_make(&device, &bent), wanted);
    bend_again();
}

/* A station at the limits. */
static void takes(const char *what)
{
    if (pn_make(&device, &bent) != PN_OK) {
        printf("%s: answers %u, and should be made\n", what, (unsigned)pn_make(&device, &bent));
        exit(1);
    }
    memcpy(&before, &device, sizeof device);
    bend_again();
}

/* A station whose second record of the application is this one. */
static void bend_record(pn_asked_record record)
{
    bend_again();
    bent.record_count = 2;
    bent.records[0] = (pn_asked_record){1, 1, 8, 4, 1, 0};
    bent.records[1] = record;
}

/* Stations with other records that the application answers. */
static void bend_records(void)
{
    bend_record((pn_asked_record){1, 1, 9, PN_RECORD_SIZE, 0, 1}), takes("two records of the application");
    bend_record((pn_asked_record){1, 2, 8, 1, 1, 1}), takes("the same index of another submodule");
    bend_record((pn_asked_record){9, 1, 32767, 1, 1, 0}), takes("a record of an empty slot");
    bend_record((pn_asked_record){1, 1, 8, 1, 1, 1}), refuses("a record twice", PN_BAD_RECORD);
    bend_record((pn_asked_record){1, 1, 32768, 1, 1, 1}), refuses("a record past the last index", PN_BAD_RECORD);
    bend_record((pn_asked_record){1, 1, 9, 0, 1, 1}), refuses("a record without octets", PN_BAD_RECORD);
    bend_record((pn_asked_record){1, 1, 9, PN_RECORD_SIZE + 1, 1, 1}), refuses("a record that is too long", PN_BAD_RECORD);
    bend_record((pn_asked_record){1, 1, 9, 1, 0, 0}), refuses("a record without access", PN_BAD_RECORD);
    bend_record((pn_asked_record){1, 1, 9, 0, 1, 1}), bent.record_count = 1, takes("a record of the application that is not counted");
    bent.record_count = PN_ASKED_RECORDS + 1, refuses("17 records", PN_BAD_STATION);
}

/* Stations that cannot be, each with one fault. */
static void bend_stations(void)
{
    pn_submodule *part = &bent.modules[1].submodules[0];
    bend_again();
    takes("three modules");
    bent.mac[0] = 0xFF, refuses("the broadcast address", PN_BAD_MAC);
    bent.mac[0] = 1, refuses("a group's address", PN_BAD_MAC);
    bent.mac[0] = 0xFE, takes("an address of one station");
    bent.modules[2].slot = 40, refuses("slot 40", PN_BAD_SLOT);
    bent.modules[2].slot = 16, refuses("slot 16", PN_BAD_SLOT);
    bent.modules[2].slot = 15, takes("slot 15");
    bent.modules[2].slot = 0, refuses("slot 0 twice", PN_BAD_SLOT);
    bent.modules[1].slot = 2, refuses("a slot twice", PN_BAD_SLOT);
    bent.modules[1].slot = 2, bent.modules[2].slot = 1, takes("slots out of order");
    bent.modules[0].submodules[0].subslot = 0, refuses("subslot 0", PN_BAD_SUBSLOT);
    bent.modules[2].submodules[1].subslot = 36864, refuses("a subslot past the last", PN_BAD_SUBSLOT);
    bent.modules[2].submodules[1].subslot = 36863, takes("the last subslot");
    bent.modules[2].submodules[1].subslot = 1, refuses("a subslot twice", PN_BAD_SUBSLOT);
    part->input = 65535, refuses("65,535 octets of input", PN_BAD_DATA);
    part->input = 1440, refuses("1,440 octets of input", PN_BAD_DATA);
    part->output = 1440, refuses("1,440 octets of output", PN_BAD_DATA);
    part->input = part->output = 1439, takes("1,439 octets");
    part->parameters[0].length = 0, refuses("a parameter record of no octets", PN_BAD_PARAMETER);
    part->parameters[1].length = 65, refuses("a parameter record of 65 octets", PN_BAD_PARAMETER);
    part->parameters[1].index = 32768, refuses("an index past the last", PN_BAD_PARAMETER);
    part->parameters[1].index = 1, refuses("an index twice", PN_BAD_PARAMETER);
    part->parameter_count = 1, part->parameters[1].length = 65, takes("a record that is not counted");
    bent.module_count = 2, bent.modules[2].slot = 40, takes("a module that is not counted");
    bent.modules[2].submodule_count = 1, bent.modules[2].submodules[1].subslot = 1, takes("a submodule that is not counted");
    bend_records();
}

/* The device refuses what its application says, for this reason. */
static void reasons(const char *what, uint32_t answer, uint32_t wanted)
{
    wants(what, answer, PN_REFUSED);
    if (op.reason != wanted) {
        printf("%s: the reason is %u (%s), and should be %u\n", what, (unsigned)op.reason, pn_strreason(op.reason), (unsigned)wanted);
        exit(1);
    }
}

/* Why a device without a relation refuses what its application says. */
static void refuse_events(void)
{
    bend_again();
    bent.without_services = 1;
    bent.modules[1].submodules[0].input = 2;
    keep(pn_make(&device, &bent));
    keep(pn_boot(&device, &op, erased, erased));
    reasons("an input of an empty slot", pn_input(&device, &op, 9, 1, octets, 2), PN_WHY_NOT_PLUGGED);
    reasons("an input of an empty subslot", pn_input(&device, &op, 1, 3, octets, 2), PN_WHY_NOT_PLUGGED);
    reasons("a short input", pn_input(&device, &op, 1, 1, octets, 1), PN_WHY_BAD_LENGTH);
    reasons("a long input", pn_input(&device, &op, 1, 1, octets, sizeof octets), PN_WHY_BAD_LENGTH);
    reasons("an input without a relation", pn_input(&device, &op, 1, 1, octets, 2), PN_WHY_NO_RELATION);
    reasons("an alarm of an empty slot", pn_alarm(&device, &op, 9, 1, octets, 1), PN_WHY_NOT_PLUGGED);
    reasons("a long alarm", pn_alarm(&device, &op, 1, 1, octets, 33), PN_WHY_BAD_LENGTH);
    reasons("an alarm without a relation", pn_alarm(&device, &op, 1, 1, octets, 32), PN_WHY_NO_RELATION);
    reasons("a status of an empty slot", pn_status(&device, &op, 9, 1, 1), PN_WHY_NOT_PLUGGED);
    reasons("ready without a relation", pn_ready(&device, &op), PN_WHY_NO_RELATION);
    reasons("a diagnosis of an empty slot", pn_diagnosis(&device, &op, 9, 1, 0, 0, 1), PN_WHY_NOT_PLUGGED);
    reasons("a diagnosis of the channel 0x8001", pn_diagnosis(&device, &op, 1, 1, 0x8001, 1, 1), PN_WHY_BAD_NUMBER);
    reasons("a diagnosis with the error 0", pn_diagnosis(&device, &op, 1, 1, 0, 0, 0), PN_WHY_BAD_NUMBER);
    reasons("a diagnosis that does not exist", pn_diagnosis(&device, &op, 1, 1, 0, 1, 0), PN_WHY_ABSENT);
    for (uint16_t channel = 0; channel < 32; channel++)
        keep(pn_diagnosis(&device, &op, 1, 1, channel, 1, 1));
    reasons("a diagnosis that exists", pn_diagnosis(&device, &op, 1, 1, 31, 1, 1), PN_WHY_EXISTS);
    reasons("a 33rd diagnosis", pn_diagnosis(&device, &op, 1, 1, 32, 1, 1), PN_WHY_FULL);
    reasons("an answer to nothing", pn_answer(&device, &op, 1, octets, 1), PN_WHY_NOT_ASKED);
    reasons("a Write is done that was not asked", pn_written(&device, &op, 1), PN_WHY_NOT_ASKED);
    reasons("a refusal of nothing", pn_refuse(&device, &op, 1, 0, 0), PN_WHY_NOT_ASKED);
}

/* A plug of a submodule that differs in one number from one that is accepted. */
static void refuse_plug(const char *what, uint16_t slot, uint16_t subslot, uint32_t ident, uint16_t input, uint16_t index, uint32_t wanted)
{
    plugged.subslot = subslot, plugged.input = input, plugged.parameter_count = 2;
    plugged.parameters[0] = (pn_parameter){1, 1}, plugged.parameters[1] = (pn_parameter){index, 64};
    reasons(what, pn_plug(&device, &op, slot, ident, &plugged), wanted);
}

/* Why it refuses pulls and plugs. */
static void refuse_modules(void)
{
    keep(pn_make(&device, &bent));
    keep(pn_boot(&device, &op, erased, erased));
    reasons("a pull of the access point", pn_pull(&device, &op, 0, 1), PN_WHY_ACCESS_POINT);
    reasons("a pull of its module", pn_pull_module(&device, &op, 0), PN_WHY_ACCESS_POINT);
    reasons("a pull of an empty slot", pn_pull(&device, &op, 9, 1), PN_WHY_NOT_PLUGGED);
    reasons("a pull of an empty subslot", pn_pull(&device, &op, 1, 3), PN_WHY_NOT_PLUGGED);
    reasons("a pull of no module", pn_pull_module(&device, &op, 9), PN_WHY_NOT_PLUGGED);
    refuse_plug("a plug into the access point", 0, 3, bent.modules[0].ident, 2, 2, PN_WHY_ACCESS_POINT);
    refuse_plug("a plug into another module", 1, 3, bent.modules[1].ident + 1, 2, 2, PN_WHY_OTHER_MODULE);
    refuse_plug("a plug over a submodule", 1, 1, bent.modules[1].ident, 2, 2, PN_WHY_PLUGGED);
    refuse_plug("a plug into slot 16", 16, 1, 1, 2, 2, PN_WHY_BAD_SUBMODULE);
    refuse_plug("a plug into subslot 0", 9, 0, 1, 2, 2, PN_WHY_BAD_SUBMODULE);
    refuse_plug("a plug into subslot 36864", 9, 36864, 1, 2, 2, PN_WHY_BAD_SUBMODULE);
    refuse_plug("a plug without an ident number", 9, 1, 0, 2, 2, PN_WHY_BAD_SUBMODULE);
    refuse_plug("a plug with too much data", 9, 1, 1, 1441, 2, PN_WHY_BAD_SUBMODULE);
    refuse_plug("a plug with an index past the last", 9, 1, 1, 2, 32768, PN_WHY_BAD_SUBMODULE);
    refuse_plug("a plug with an index twice", 9, 1, 1, 2, 1, PN_WHY_BAD_SUBMODULE);
    plugged.parameter_count = 3;
    wants("a plug with three records", pn_plug(&device, &op, 9, 1, &plugged), PN_BAD_LENGTH);
    reasons("ready at a place without a relation", pn_ready_at(&device, &op, 1, 1), PN_WHY_NO_RELATION);
    plugged.parameter_count = 0;
    for (plugged.subslot = 1; plugged.subslot <= 4; plugged.subslot++)
        keep(pn_plug(&device, &op, 9, 1, &plugged));
    refuse_plug("a fifth submodule", 9, 5, 1, 2, 2, PN_WHY_NO_ROOM);
    keep(pn_pull(&device, &op, 9, 4));
    keep(pn_pull_module(&device, &op, 9));
    reasons("a pull of what was pulled", pn_pull_module(&device, &op, 9), PN_WHY_NOT_PLUGGED);
}

int main(void)
{
    memset(erased, 0xFF, sizeof erased);
    wants("a start before it was made", pn_boot(&device, &op, erased, erased), PN_NOT_MADE);
    wants("a frame before it was made", pn_frame(&device, &op, set, sizeof set), PN_NOT_MADE);
    wants("settings before it was made", pn_running(&device, &op, &settings), PN_NOT_MADE);
    station.mac[0] = 2;
    station.mac[5] = 1;
    wants("no device", pn_make(NULL, &station), PN_NULL);
    wants("no station", pn_make(&device, NULL), PN_NULL);
    wants("another version", pn_device_make(device.room, sizeof device.room, PN_ABI + 1, PN_OP_LENGTH, &station), PN_BAD_ABI);
    wants("another operation", pn_device_make(device.room, sizeof device.room, PN_ABI, PN_OP_LENGTH - 4, &station), PN_BAD_ABI);
    wants("a small room", pn_device_make(device.room, PN_DEVICE_SIZE - 1, PN_ABI, PN_OP_LENGTH, &station), PN_SMALL_ROOM);
    bent.module_count = 17;
    wants("17 modules", pn_make(&device, &bent), PN_BAD_STATION);
    bent.module_count = 1;
    bent.modules[0].submodule_count = 5;
    wants("5 submodules", pn_make(&device, &bent), PN_BAD_STATION);
    bent.modules[0].submodule_count = 1;
    bent.modules[0].submodules[0].parameter_count = 3;
    wants("3 parameter records", pn_make(&device, &bent), PN_BAD_STATION);
    bent.module_count = 0;
    bent.station_type_length = 26;
    wants("a long station type", pn_make(&device, &bent), PN_BAD_STATION);
    bend_stations();
    refuse_events();
    refuse_modules();
    station.without_services = 1; /* else they would have something due below */
    keep(pn_make(&device, &station));

    ask_all("before the start");
    wants("a frame before the start", pn_frame(&device, &op, set, sizeof set), PN_NOT_BOOTED);
    wants("a frame after units before the start", pn_frame_after(&device, &op, 1, set, sizeof set), PN_NOT_BOOTED);
    wants("time before the start", pn_tick(&device, &op, 1), PN_NOT_BOOTED);
    wants("an input before the start", pn_input(&device, &op, 0, 1, octets, 1), PN_NOT_BOOTED);
    wants("an alarm before the start", pn_alarm(&device, &op, 0, 1, octets, 1), PN_NOT_BOOTED);
    wants("work before the start", pn_next(&device, &op), PN_NOT_BOOTED);
    wants("an output before the start", pn_output(&device, &op, 0, 1), PN_NOT_BOOTED);
    wants("a state before the start", pn_state(&device, &op), PN_NOT_BOOTED);
    wants("settings before the start", pn_running(&device, &op, &settings), PN_NOT_BOOTED);
    wants("what is stored before the start", pn_stored(&device, &op, &settings), PN_NOT_BOOTED);
    wants("a record before the start", pn_taken(&device, &op, 0), PN_NOT_BOOTED);
    wants("a record that was passed on before the start", pn_passed(&device, &op, 0), PN_NOT_BOOTED);
    wants("their number before the start", pn_passed_on(&device, &op, &left), PN_NOT_BOOTED);
    wants("commits before the start", pn_left(&device, &op, &left), PN_NOT_BOOTED);
    wants("a loss before the start", pn_lose(&device, &op), PN_NOT_BOOTED);
    wants("what is due before the start", pn_due(&device, &op, &left), PN_NOT_BOOTED);
    wants("a status before the start", pn_status(&device, &op, 0, 1, 1), PN_NOT_BOOTED);
    wants("ready before the start", pn_ready(&device, &op), PN_NOT_BOOTED);
    wants("a stop before the start", pn_provider_state(&device, &op, 0), PN_NOT_BOOTED);
    wants("a pull before the start", pn_pull(&device, &op, 1, 1), PN_NOT_BOOTED);
    wants("a pull of a module before the start", pn_pull_module(&device, &op, 1), PN_NOT_BOOTED);
    wants("a plug before the start", pn_plug(&device, &op, 1, 1, &plugged), PN_NOT_BOOTED);
    wants("ready at a place before the start", pn_ready_at(&device, &op, 1, 1), PN_NOT_BOOTED);
    wants("a place before the start", pn_expected(&device, &op, 0), PN_NOT_BOOTED);
    wants("a question before the start", pn_asked(&device, &op), PN_NOT_BOOTED);
    wants("an answer before the start", pn_answer(&device, &op, 1, octets, 1), PN_NOT_BOOTED);
    wants("a Write that is done before the start", pn_written(&device, &op, 1), PN_NOT_BOOTED);
    wants("a refusal before the start", pn_refuse(&device, &op, 1, 0xA0, 0), PN_NOT_BOOTED);
    wants("a provider before the start", pn_provider(&device, &op, 0, 1, octets, octets + 1), PN_NOT_BOOTED);
    wants("a received output before the start", pn_received(&device, &op, 0, 1, octets, octets + 1), PN_NOT_BOOTED);
    wants("news before the start", pn_news(&device, &op, &watch, &left), PN_NOT_BOOTED);
    wants("no sector", pn_boot(&device, &op, NULL, erased), PN_NULL);
    op.sector = 0;
    wants("a short sector", pn_ask(&device, &op, PN_OP_SECTOR, erased, PN_SECTOR_SIZE - 1), PN_BAD_LENGTH);
    op.sector = 2;
    wants("a third sector", pn_ask(&device, &op, PN_OP_SECTOR, erased, PN_SECTOR_SIZE), PN_BAD_LENGTH);
    if (pn_boot(&device, &op, foreign, foreign) != PN_FOREIGN)
        return 1;
    keep(pn_boot(&device, &op, erased, erased));

    ask_all("after the start");
    /* A chip that was never written: 65,535 generations, each a base and 14 slots. */
    keep(pn_left(&device, &op, &left));
    if (left != 65535u * 15u || op.commits != left)
        return 1;
    wants("a second start", pn_boot(&device, &op, erased, erased), PN_IS_BOOTED);
    wants("no operation", pn_ask(&device, &op, 0, NULL, 0), PN_UNKNOWN);
    wants("another operation", pn_ask(&device, &op, 37, NULL, 0), PN_UNKNOWN);
    wants("a refusal with one code", pn_ask(&device, &op, PN_OP_REFUSE, octets, 1), PN_BAD_LENGTH);
    wants("no question", pn_asked(&device, &op), PN_NOT_ASKED);
    wants("an answer for no operation", pn_answer(&device, NULL, 1, octets, 1), PN_NULL);
    wants("an answer without octets", pn_answer(&device, &op, 1, NULL, 1), PN_NULL);
    wants("a Write that is done for no operation", pn_written(&device, NULL, 1), PN_NULL);
    wants("a refusal for no operation", pn_refuse(&device, NULL, 1, 0xA0, 0), PN_NULL);
    wants("no operation's room", pn_frame(&device, NULL, set, sizeof set), PN_NULL);
    wants("no octets", pn_frame(&device, &op, NULL, 1), PN_NULL);
    wants("no operation for a frame after units", pn_frame_after(&device, NULL, 1, set, sizeof set), PN_NULL);
    wants("no octets after units", pn_frame_after(&device, &op, 1, NULL, 1), PN_NULL);
    wants("no device for a frame", pn_frame(NULL, &op, set, sizeof set), PN_NULL);
    wants("an output that is not plugged", pn_output(&device, &op, 9, 9), PN_NO_SLOT);
    wants("no place for settings", pn_running(&device, &op, NULL), PN_NULL);
    wants("no place for a number", pn_left(&device, &op, NULL), PN_NULL);
    wants("no place for units", pn_due(&device, &op, NULL), PN_NULL);
    wants("no place for IOPS", pn_provider(&device, &op, 0, 1, NULL, octets), PN_NULL);
    wants("no place for DataStatus", pn_provider(&device, &op, 0, 1, octets, NULL), PN_NULL);
    wants("no frame", pn_provider(&device, &op, 0, 1, octets, octets + 1), PN_NO_FRAME);
    wants("no place for received IOPS", pn_received(&device, &op, 0, 1, NULL, octets), PN_NULL);
    wants("no place for received DataStatus", pn_received(&device, &op, 0, 1, octets, NULL), PN_NULL);
    wants("no received output", pn_received(&device, &op, 0, 1, octets, octets + 1), PN_NO_FRAME);
    wants("no place for received IOPS of a length", pn_received_exactly(&device, &op, 0, 1, 0, NULL, octets), PN_NULL);
    wants("no received output of a length", pn_received_exactly(&device, &op, 0, 1, 0, octets, octets + 1), PN_NO_FRAME);
    wants("no place for the end of parameters", pn_parameters_end(&device, &op, NULL), PN_NULL);
    wants("a status for no operation", pn_status(&device, NULL, 0, 1, 0), PN_NULL);
    wants("a plug for no operation", pn_plug(&device, NULL, 9, 1, &plugged), PN_NULL);
    wants("a plug of nothing", pn_plug(&device, &op, 9, 1, NULL), PN_NULL);
    wants("no watch", pn_news(&device, &op, NULL, &left), PN_NULL);
    wants("no place for news", pn_news(&device, &op, &watch, NULL), PN_NULL);
    wants("no host", pn_carry_out(&device, &op, NULL), PN_NULL);
    for (unsigned i = 0; i < 3; i++) {
        pn_host lacking = failing;
        if (i == 0)
            lacking.program = NULL;
        else if (i == 1)
            lacking.erase = NULL;
        else
            lacking.send = NULL;
        wants("a host without a function", pn_carry_out(&device, &op, &lacking), PN_NULL);
    }
    keep(pn_running(&device, &op, &settings));
    wants("settings of no operation", pn_settings_of(NULL, &settings), PN_NULL);
    wants("settings for nobody", pn_settings_of(&op, NULL), PN_NULL);
    for (op.length = 0; op.length < 190; op.length++)
        wants("short settings", pn_settings_of(&op, &settings), PN_BAD_LENGTH);
    for (op.length = 431; op.length < PN_OP_SIZE; op.length++)
        wants("long settings", pn_settings_of(&op, &settings), PN_BAD_LENGTH);
    op.length = 0xFFFFFFFFu;
    wants("far too long settings", pn_settings_of(&op, &settings), PN_BAD_LENGTH);
    op.length = 430;
    keep(pn_settings_of(&op, &settings));
    if (settings.name_length != 240)
        return 1;
    wants("a record that was not accepted", pn_taken(&device, &op, 0), PN_NO_RECORD);
    wants("a place without a relation", pn_expected(&device, &op, 0), PN_NO_PLACE);
    wants("a record that was not passed on", pn_passed(&device, &op, 0), PN_NO_RECORD);
    wants("a record for no operation", pn_passed(&device, NULL, 0), PN_NULL);
    wants("no place for their number", pn_passed_on(&device, &op, NULL), PN_NULL);
    keep(pn_passed_on(&device, &op, &left));
    if (left != 0)
        return 1;
    keep(pn_frame(&device, &op, octets, sizeof octets));
    keep(pn_frame(&device, &op, octets, 0));

    keep(pn_news(&device, &op, &watch, &left));
    if (left != 0)
        return 1;
    keep(pn_frame(&device, &op, set, sizeof set));
    ask_all("in front of the work");
    wants("a status in front of the work", pn_status(&device, &op, 0, 1, 1), PN_HAS_WORK);
    wants("ready in front of the work", pn_ready(&device, &op), PN_HAS_WORK);
    wants("a stop in front of the work", pn_provider_state(&device, &op, 0), PN_HAS_WORK);
    wants("a pull in front of the work", pn_pull(&device, &op, 1, 1), PN_HAS_WORK);
    wants("a pull of a module in front of the work", pn_pull_module(&device, &op, 1), PN_HAS_WORK);
    wants("a plug in front of the work", pn_plug(&device, &op, 1, 1, &plugged), PN_HAS_WORK);
    wants("ready at a place in front of the work", pn_ready_at(&device, &op, 1, 1), PN_HAS_WORK);
    wants("a frame in front of the work", pn_frame(&device, &op, set, sizeof set), PN_HAS_WORK);
    wants("time in front of the work", pn_tick(&device, &op, 1), PN_HAS_WORK);
    wants("an input in front of the work", pn_input(&device, &op, 0, 1, octets, 1), PN_HAS_WORK);
    wants("an alarm in front of the work", pn_alarm(&device, &op, 0, 1, octets, 1), PN_HAS_WORK);
    /* The octets of each piece lie in the room, and the answer of the Set is for its sender. */
    for (op.work = PN_ERASE; op.work != PN_NOTHING;) {
        keep(pn_next(&device, &op));
        if (op.length != 0 && (op.data < device.room || op.data + op.length > device.room + sizeof device.room))
            return 1;
        if (op.work == PN_SEND && (op.length != 60 || memcmp(op.data, set + 6, 6) != 0 || memcmp(op.data + 6, station.mac, 6) != 0))
            return 1;
    }
    keep(pn_news(&device, &op, &watch, &left));
    if (left != PN_NEW_NAME || watch.settings.name_length == 0)
        return 1;
    keep(pn_left(&device, &op, &left));
    if (left != 65535u * 15u - 1u)
        return 1;
    keep(pn_tick(&device, &op, 1000));
    if (op.due != 0xFFFFFFFFu)
        return 1;

    /* A step whose first flash call fails: nothing more of it is handed out. */
    keep(pn_frame(&device, &op, reset, sizeof reset));
    if (pn_carry_out(&device, &op, &failing) != PN_FLASH_FAULT || sent != 0)
        return 1;
    memcpy(&before, &device, sizeof device);
    wants("work after a loss", pn_next(&device, &op), PN_LOST);
    wants("work after a loss, carried out", pn_carry_out(&device, &op, &failing), PN_LOST);
    wants("a frame after a loss", pn_frame(&device, &op, set, sizeof set), PN_LOST);
    wants("a frame after units and a loss", pn_frame_after(&device, &op, 1, set, sizeof set), PN_LOST);
    wants("time after a loss", pn_tick(&device, &op, 1), PN_LOST);
    wants("an input after a loss", pn_input(&device, &op, 0, 1, octets, 1), PN_LOST);
    wants("an alarm after a loss", pn_alarm(&device, &op, 0, 1, octets, 1), PN_LOST);
    wants("an output after a loss", pn_output(&device, &op, 0, 1), PN_LOST);
    wants("a state after a loss", pn_state(&device, &op), PN_LOST);
    wants("settings after a loss", pn_running(&device, &op, &settings), PN_LOST);
    wants("what is stored after a loss", pn_stored(&device, &op, &settings), PN_LOST);
    wants("a record after a loss", pn_taken(&device, &op, 0), PN_LOST);
    wants("a record that was passed on after a loss", pn_passed(&device, &op, 0), PN_LOST);
    wants("commits after a loss", pn_left(&device, &op, &left), PN_LOST);
    wants("what is due after a loss", pn_due(&device, &op, &left), PN_LOST);
    wants("a status after a loss", pn_status(&device, &op, 0, 1, 1), PN_LOST);
    wants("ready after a loss", pn_ready(&device, &op), PN_LOST);
    wants("a stop after a loss", pn_provider_state(&device, &op, 0), PN_LOST);
    wants("a pull after a loss", pn_pull(&device, &op, 1, 1), PN_LOST);
    wants("a pull of a module after a loss", pn_pull_module(&device, &op, 1), PN_LOST);
    wants("a plug after a loss", pn_plug(&device, &op, 1, 1, &plugged), PN_LOST);
    wants("ready at a place after a loss", pn_ready_at(&device, &op, 1, 1), PN_LOST);
    wants("a place after a loss", pn_expected(&device, &op, 0), PN_LOST);
    wants("a provider after a loss", pn_provider(&device, &op, 0, 1, octets, octets + 1), PN_LOST);
    wants("a received output after a loss", pn_received(&device, &op, 0, 1, octets, octets + 1), PN_LOST);
    wants("a received output of a length after a loss", pn_received_exactly(&device, &op, 0, 1, 0, octets, octets + 1), PN_LOST);
    wants("news after a loss", pn_news(&device, &op, &watch, &left), PN_LOST);
    ask_all("after a loss");
    wants("a start after a loss", pn_boot(&device, &op, erased, erased), PN_LOST);
    wants("a second loss", pn_lose(&device, &op), PN_LOST);
    keep(pn_make(&device, &station));
    keep(pn_boot(&device, &op, erased, erased));
    printf("%u misuses\n", count);
    return 0;
}
