/* The C interfaces of the controller and of the reading of plans. Each misuse that the header names returns its number and changes nothing.
 * Each catalogue that is read makes a controller. A plan that a host writes has the fault of the catalogue with the same content, or is
 * the same plan. Catalogues with changed, removed and inserted octets give a fault, the same one each time, and nothing else (under the
 * sanitizers). Arguments: a catalogue, and how many changed ones to try. */
#include "nandutable_controller.h"
#include <stdarg.h>
#include <stdio.h>
#include <stdlib.h>

static pn_plan plan, bent;
static pn_controller controller, before;
static pn_op op;
static pn_station station;
static pn_neighbour neighbour;
static const pn_host silent;
static uint8_t text[65536], made[65536 + 8], octets[2000];
static const uint8_t ar[16] = {1}, activity[16] = {2}, zero[16];
static unsigned count;

static void wants(const char *what, uint32_t answer, uint32_t wanted)
{
    count++;
    if (answer == wanted && (wanted == PN_OK || memcmp(&controller, &before, sizeof controller) == 0))
        return;
    printf("%s: answers %u, and should %u\n", what, (unsigned)answer, (unsigned)wanted);
    exit(1);
}

static void keep(const char *what, uint32_t answer)
{
    wants(what, answer, PN_OK);
    memcpy(&before, &controller, sizeof before);
}

/* The plan again, with valid parameter records and records. */
static void bend_again(void)
{
    bent = plan;
    bent.modules[1].submodules[0].parameter_count = 2;
    bent.modules[1].submodules[0].parameters[0] = (pn_parameter){1, 4};
    bent.modules[1].submodules[0].parameters[1] = (pn_parameter){32767, 64};
    bent.record_count = 2;
    bent.records[0] = (pn_record){1, 1, 1, 4, {0}};
    bent.records[1] = (pn_record){1, 1, 32767, 64, {0}};
}

/* A changed plan: no controller is made from it, and its fault is reported. */
static void refuses(const char *what, uint32_t fault)
{
    wants(what, pn_controller_start(&controller, &bent, ar, activity), PN_BAD_PLAN);
    if (pn_plan_fault(&bent) != fault) {
        printf("%s: the fault is %u, and should be %u\n", what, (unsigned)pn_plan_fault(&bent), (unsigned)fault);
        exit(1);
    }
    bend_again();
}

/* A plan at the limits makes a controller. */
static void takes(const char *what)
{
    if (pn_plan_fault(&bent) != PN_OK || pn_controller_start(&controller, &bent, ar, activity) != PN_OK) {
        printf("%s: the fault is %u, and there should be none\n", what, (unsigned)pn_plan_fault(&bent));
        exit(1);
    }
    memcpy(&controller, &before, sizeof controller);
    bend_again();
}

/* Types of station that tools do not accept. */
static void bend_identities(void)
{
    memset(bent.identity.station_type, 'x', sizeof bent.identity.station_type);
    bent.identity.station_type_length = 25, takes("a type of 25 octets");
    for (unsigned length = 26; length < 30; length++) {
        memset(bent.identity.station_type, 'x', sizeof bent.identity.station_type);
        bent.identity.station_type_length = length, refuses("a long type of station", PN_PLAN_NUMBER);
    }
    bent.identity.station_type_length = 0xFFFFFFFF, refuses("a type of station that is far too long", PN_PLAN_NUMBER);
    bent.identity.station_type_length = 1, bent.identity.station_type[0] = 0x1F, refuses("a type of station that is no text", PN_PLAN_NUMBER);
    bent.identity.station_type_length = 1, bent.identity.station_type[0] = 0x7F, refuses("a type of station that is no text either", PN_PLAN_NUMBER);
}

/* Numbers that a catalogue may not have. */
static void bend_numbers(void)
{
    pn_submodule *part = &bent.modules[1].submodules[0];
    takes("records that are accepted");
    bent.send_clock_factor = 0, refuses("no clock", PN_PLAN_NUMBER);
    bent.send_clock_factor = 129, refuses("a slow clock", PN_PLAN_NUMBER);
    bent.reduction_ratio = 0, refuses("no ratio", PN_PLAN_NUMBER);
    bent.reduction_ratio = 513, refuses("a large ratio", PN_PLAN_NUMBER);
    bent.data_hold_factor = 0, refuses("no hold", PN_PLAN_NUMBER);
    bent.data_hold_factor = 7681, refuses("a long hold", PN_PLAN_NUMBER);
    bent.send_clock_factor = 128, bent.reduction_ratio = 512, bent.data_hold_factor = 7680, takes("the longest times");
    bent.modules[0].ident = 0, refuses("an access point without a number", PN_PLAN_NUMBER);
    bent.modules[2].ident = 0, refuses("a module without a number", PN_PLAN_NUMBER);
    bent.modules[1].ident = 0xFFFFFFFF, part->ident = 0, takes("the greatest number");
    bent.modules[0].submodules[0].subslot = 0, refuses("subslot 0", PN_PLAN_NUMBER);
    bent.modules[0].submodules[1].subslot = 1, refuses("a subslot twice", PN_PLAN_NUMBER);
    bent.modules[0].submodules[1].subslot = 32770, refuses("subslots out of order", PN_PLAN_NUMBER);
    bent.modules[0].submodules[2].subslot = 36863, takes("the last subslot");
    bent.modules[0].submodules[2].subslot = 36864, refuses("a subslot past the last", PN_PLAN_NUMBER);
    part->parameters[1].index = 32768, bent.record_count = 1, refuses("an index past the last", PN_PLAN_NUMBER);
    part->parameters[1].index = 0xFFFF, bent.records[1].index = 0xFFFF, refuses("index 0xFFFF", PN_PLAN_NUMBER);
    part->parameters[1].index = 1, bent.record_count = 1, refuses("an index twice", PN_PLAN_NUMBER);
    part->parameters[1].index = 0, bent.records[1].index = 0, takes("index 0");
    part->parameters[0].length = 0, bent.records[0].length = 0, refuses("a parameter record of no octets", PN_PLAN_NUMBER);
    part->parameters[1].length = 65, bent.record_count = 1, refuses("a parameter record of 65 octets", PN_PLAN_NUMBER);
    part->parameters[1].length = 1, bent.records[1].length = 1, takes("a record of one octet");
}

/* Records that no submodule accepts. */
static void bend_records(void)
{
    bent.records[0].length = 0, refuses("a record of no octets", PN_PLAN_NUMBER);
    bent.records[0].length = 3, refuses("a record that is too short", PN_PLAN_NUMBER);
    bent.records[0].length = 5, refuses("a record that is too long", PN_PLAN_NUMBER);
    bent.records[1].length = 65, refuses("a record of 65 octets", PN_PLAN_NUMBER);
    bent.records[0].slot = 0, refuses("a record of a slot whose submodule takes none", PN_PLAN_NUMBER);
    bent.records[0].slot = 2, refuses("a record of a module that takes none", PN_PLAN_NUMBER);
    bent.records[1].slot = 3, refuses("a record of a slot where nothing is", PN_PLAN_NUMBER);
    bent.records[1].slot = 0xFFFF, refuses("a record of a slot that there is not", PN_PLAN_NUMBER);
    bent.records[1].subslot = 0, refuses("a record of subslot 0", PN_PLAN_NUMBER);
    bent.records[1].subslot = 2, refuses("a record of a subslot where nothing is", PN_PLAN_NUMBER);
    bent.records[1].index = 2, refuses("a record of another index", PN_PLAN_NUMBER);
    bent.records[1].index = 0xFFFF, refuses("a record of index 0xFFFF", PN_PLAN_NUMBER);
    bent.records[1].index = 1, refuses("a record with the length of the other", PN_PLAN_NUMBER);
    bent.record_count = 33, refuses("33 records", PN_PLAN_TOO_MANY);
    for (unsigned i = 2; i < 32; i++)
        bent.records[i] = bent.records[0];
    bent.record_count = 32, takes("32 records");
    bent.modules[0].submodules[0].parameter_count = 1, bent.modules[0].submodules[0].parameters[0] = (pn_parameter){5, 1};
    bent.records[0] = (pn_record){0, 1, 5, 1, {0}}, refuses("a record of the access point", PN_PLAN_NOT_ALLOWED);
}

static void bend_names_and_addresses(void)
{
    static const uint8_t hosts[] = {1, 126, 128, 223}, others[] = {0, 127, 224, 255};
    bent.name_length = 241, refuses("a long name", PN_PLAN_NAME);
    bent.name[0] = 'P', refuses("no station name", PN_PLAN_NAME);
    bent.name_length = 0, refuses("a station without a name", PN_PLAN_NAME);
    bent.controller_name_length = 0, refuses("a controller without a name", PN_PLAN_NAME);
    bent.controller_name_length = 0xFFFFFFFF, refuses("a controller with a long name", PN_PLAN_NAME);
    bent.mask[0] = 1, refuses("a mask with a hole", PN_PLAN_ADDRESS);
    bent.controller_mac[0] = 1, refuses("a group's address", PN_PLAN_ADDRESS);
    for (unsigned i = 0; i < 4; i++) {
        bent.controller_address[0] = others[i], refuses("a controller that is no host", PN_PLAN_ADDRESS);
        bent.address[0] = others[i], refuses("a station that is no host", PN_PLAN_ADDRESS);
        bent.controller_address[0] = bent.address[0] = hosts[i], takes("two hosts");
    }
    memset(bent.address, 0, 4), memset(bent.mask, 0, 4), memset(bent.gateway, 0, 4), takes("a station without an address");
}

static void bend_places(void)
{
    bent.module_count = 0, bent.record_count = 0, refuses("no module", PN_PLAN_NOT_ALLOWED);
    bent.module_count = 17, refuses("17 modules", PN_PLAN_TOO_MANY);
    bent.module_count = 0xFFFFFFFF, refuses("far too many modules", PN_PLAN_TOO_MANY);
    bent.modules[0].slot = 3, refuses("no access point", PN_PLAN_NOT_ALLOWED);
    bent.modules[2].slot = 0, refuses("slot 0 twice", PN_PLAN_NOT_ALLOWED);
    bent.modules[2].slot = 1, refuses("a slot twice", PN_PLAN_NOT_ALLOWED);
    bent.modules[2].slot = 15, takes("the last slot");
    bent.modules[2].slot = 16, refuses("slot 16", PN_PLAN_TOO_MANY);
    bent.modules[0].submodule_count = 5, refuses("5 submodules", PN_PLAN_TOO_MANY);
    bent.modules[1].submodules[0].parameter_count = 3, refuses("3 parameter records", PN_PLAN_TOO_MANY);
}

static void bend_plans(void)
{
    bend_identities();
    bend_numbers();
    bend_records();
    bend_names_and_addresses();
    bend_places();
    bent.modules[1].submodules[0].input = 1440, refuses("a frame that is too long", PN_PLAN_FRAME_LONG);
    bent.modules[1].submodules[0].input = 65535, refuses("far too long", PN_PLAN_FRAME_LONG);
    bent.module_count = 16;
    for (unsigned i = 1; i < 16; i++) {
        bent.modules[i] = (pn_module){1, (uint16_t)i, 4, {{0}}};
        for (unsigned k = 0; k < 4; k++)
            bent.modules[i].submodules[k] = (pn_submodule){1, (uint16_t)(k + 1), 1, 1, 0, {{0}}};
    }
    bent.record_count = 0, refuses("a Connect that is too long", PN_PLAN_CONNECT_LONG);
    wants("no ARUUID", pn_controller_start(&controller, &plan, zero, activity), PN_BAD_PLAN);
    if (pn_plan_fault(&plan) != PN_OK || pn_plan_fault(NULL) != PN_NULL)
        exit(1);
}

/* Each operation, and some that do not exist, directly to the library: a refused one leaves the whole operation unchanged. */
static void ask_all(const char *when)
{
    static pn_op asked, told;
    for (uint32_t what = 0; what < 40; what++) {
        memset(&asked, 0xA5, sizeof asked);
        asked.what = what, asked.units = 5;
        told = asked;
        memcpy(&controller, &before, sizeof controller);
        if (pn_controller_step(controller.room, &told, octets, 0) != PN_OK && memcmp(&asked, &told, sizeof asked) != 0) {
            printf("%s: operation %u is refused and writes into the operation\n", when, (unsigned)what);
            exit(1);
        }
    }
    memcpy(&controller, &before, sizeof controller);
}

/* The next frame goes to this address. */
static int is_next(const char *destination)
{
    return pn_controller_next(&controller, &op) == PN_OK && op.work == PN_SEND && memcmp(op.octets, destination, 6) == 0;
}

/* After a tick: how many units remain, and the destinations of its frames; NULL for no second one. */
static void sends(const char *what, uint32_t units, const char *destination, const char *second)
{
    if (op.units != units || !is_next(destination) || (second != NULL && !is_next(second)) || pn_controller_next(&controller, &op) != PN_OK ||
        op.work != PN_NOTHING) {
        printf("%s does not come, with %u units left\n", what, (unsigned)units);
        exit(1);
    }
}

static void misuse(void)
{
    uint32_t number = 0, more = 0;
    wants("a frame before it was made", pn_controller_frame(&controller, &op, octets, 60), PN_NOT_MADE);
    wants("a state before it was made", pn_controller_state(&controller, &op), PN_NOT_MADE);
    wants("no room", pn_controller_start(NULL, &plan, ar, activity), PN_NULL);
    wants("no plan", pn_controller_start(&controller, NULL, ar, activity), PN_NULL);
    wants("no number", pn_controller_start(&controller, &plan, NULL, activity), PN_NULL);
    wants("another version", pn_controller_make(controller.room, sizeof controller.room, PN_ABI + 1, PN_OP_LENGTH, &plan, ar, activity), PN_BAD_ABI);
    wants("another operation", pn_controller_make(controller.room, sizeof controller.room, PN_ABI, PN_OP_LENGTH - 4, &plan, ar, activity), PN_BAD_ABI);
    wants("a small room", pn_controller_make(controller.room, PN_CONTROLLER_SIZE - 1, PN_ABI, PN_OP_LENGTH, &plan, ar, activity), PN_SMALL_ROOM);
    bend_again();
    bend_plans();
    pn_controller_put(controller.room, &plan, ar, activity);
    memcpy(&before, &controller, sizeof before);
    for (op.what = 0; op.what < 64; op.what++)
        wants("an operation before the start", pn_controller_step(controller.room, &op, octets, 0), PN_NOT_MADE);
    keep("a plan", pn_controller_start(&controller, &plan, ar, activity));
    ask_all("in front of the work");
    wants("a frame in front of the work", pn_controller_frame(&controller, &op, octets, 60), PN_HAS_WORK);
    wants("time in front of the work", pn_controller_tick(&controller, &op, 1), PN_HAS_WORK);
    wants("a value in front of the work", pn_controller_give(&controller, &op, 2, 1, octets, 2), PN_HAS_WORK);
    wants("an end in front of the work", pn_controller_stop(&controller, &op), PN_HAS_WORK);
    wants("a read in front of the work", pn_controller_read_record(&controller, &op, 1, 1, 1), PN_HAS_WORK);
    wants("a write in front of the work", pn_controller_write_record(&controller, &op, 1, 1, 1, octets, 4), PN_HAS_WORK);
    keep("the first frame", pn_controller_next(&controller, &op));
    if (op.work != PN_SEND || op.length < 26 || memcmp(op.octets, "\x01\x0E\xCF\x00\x00\x00", 6) != 0)
        exit(1);
    keep("no more frames", pn_controller_next(&controller, &op));
    if (op.work != PN_NOTHING)
        exit(1);
    ask_all("with no work");
    wants("no operation", pn_controller_ask(&controller, &op, 0, NULL, 0), PN_UNKNOWN);
    wants("another operation", pn_controller_ask(&controller, &op, 14, NULL, 0), PN_UNKNOWN);
    wants("no octets", pn_controller_frame(&controller, &op, NULL, 1), PN_NULL);
    wants("no operation's room", pn_controller_frame(&controller, NULL, octets, 60), PN_NULL);
    wants("no host", pn_controller_send(&controller, &op, NULL), PN_NULL);
    wants("a host that cannot send", pn_controller_send(&controller, &op, &silent), PN_NULL);
    wants("no station to fill in", pn_plan_station(&plan, NULL), PN_NULL);
    wants("no plan to fill it in from", pn_plan_station(NULL, &station), PN_NULL);
    wants("no such input", pn_controller_value(&controller, &op, 9, 9), PN_NO_SLOT);
    wants("no alarm", pn_controller_alarm(&controller, &op), PN_NO_SLOT);
    wants("no alarm of high priority", pn_controller_report(&controller, &op, 0), PN_NO_SLOT);
    wants("no alarm of low priority", pn_controller_report(&controller, &op, 1), PN_NO_SLOT);
    wants("no operation for a report", pn_controller_report(&controller, NULL, 1), PN_NULL);
    wants("diagnoses", pn_controller_diagnoses(&controller, &op, &number, &more), PN_OK);
    if (number != 0 || more != 0)
        exit(1);
    wants("no number of diagnoses", pn_controller_diagnoses(&controller, &op, NULL, &more), PN_NULL);
    wants("no number of further diagnoses", pn_controller_diagnoses(&controller, &op, &number, NULL), PN_NULL);
    wants("no operation for diagnoses", pn_controller_diagnoses(&controller, NULL, &number, &more), PN_NULL);
    wants("no diagnosis", pn_controller_diagnosis(&controller, &op, 0), PN_NO_SLOT);
    wants("no diagnosis past all", pn_controller_diagnosis(&controller, &op, UINT32_MAX), PN_NO_SLOT);
    wants("no operation for a diagnosis", pn_controller_diagnosis(&controller, NULL, 0), PN_NULL);
    wants("a read without data", pn_controller_read_record(&controller, &op, 1, 1, 1), PN_BUSY);
    wants("a write without data", pn_controller_write_record(&controller, &op, 1, 1, 1, octets, 1308), PN_BUSY);
    wants("a write that is too long", pn_controller_write_record(&controller, &op, 1, 1, 1, octets, 1309), PN_BAD_LENGTH);
    wants("a write of no octets", pn_controller_write_record(&controller, &op, 1, 1, 1, NULL, 4), PN_NULL);
    wants("no operation for a read", pn_controller_read_record(&controller, NULL, 1, 1, 1), PN_NULL);
    wants("no answer", pn_controller_answer(&controller, &op, &number), PN_NO_ANSWER);
    wants("no number for an answer", pn_controller_answer(&controller, &op, NULL), PN_NULL);
    wants("no neighbour", pn_controller_neighbour(&controller, &op, &neighbour), PN_NO_SLOT);
    wants("no room for a neighbour", pn_controller_neighbour(&controller, &op, NULL), PN_NULL);
    wants("no operation for a neighbour", pn_controller_neighbour(&controller, NULL, &neighbour), PN_NULL);
    wants("no refusal", pn_controller_refusal(&controller, &op, &number), PN_NO_REFUSAL);
    wants("no refused record", pn_controller_refused_record(&controller, &op, &number, &number), PN_NO_REFUSAL);
    keep("a frame that is too long", pn_controller_frame(&controller, &op, octets, sizeof octets));
    keep("a frame of nothing", pn_controller_frame(&controller, &op, octets, 0));
    keep("an output", pn_controller_give(&controller, &op, 2, 1, octets, 2));
    wants("an output of no octets", pn_controller_give(&controller, &op, 2, 1, octets, 0), PN_BAD_LENGTH);
    wants("an output that is too short", pn_controller_give(&controller, &op, 2, 1, octets, 1), PN_BAD_LENGTH);
    wants("an output that is too long", pn_controller_give(&controller, &op, 2, 1, octets, 2000), PN_BAD_LENGTH);
    wants("an output of an input", pn_controller_give(&controller, &op, 1, 1, octets, 2), PN_NO_SLOT);
    wants("an output of the access point", pn_controller_give(&controller, &op, 0, 1, octets, 0), PN_NO_SLOT);
    wants("an output of another slot", pn_controller_give(&controller, &op, 3, 1, octets, 2), PN_NO_SLOT);
    wants("an output of another subslot", pn_controller_give(&controller, &op, 2, 2, octets, 2), PN_NO_SLOT);
    /* With the first unit the controller announces its address by ARP and itself by LLDP, and with the last one of a second it looks again. */
    keep("a second", pn_controller_tick(&controller, &op, 32000));
    sends("an announcement", 31999, "\xFF\xFF\xFF\xFF\xFF\xFF", "\x01\x80\xC2\x00\x00\x0E");
    keep("the rest of it", pn_controller_tick(&controller, &op, 31999));
    sends("another Identify", 0, "\x01\x0E\xCF\x00\x00\x00", NULL);
}

/* Its neighbour, by the octets of IEEE 802.1AB: the controller tells the texts and the MAC address of the chassis, until the neighbour says that its
 * time is over. */
static void hears_neighbour(void)
{
    static const uint8_t head[] = {0x01, 0x80, 0xC2, 0, 0, 0x0E, 2, 0, 0, 0, 0, 0x44, 0x88, 0xCC, 0x02, 9, 7, 's', 'w', 'i', 't', 'c', 'h', '-', 'a',
                                   0x04, 7, 7, 'p', 'o', 'r', 't', '-', '3', 0x06, 2, 0};
    static const uint8_t rest[] = {0xFE, 10, 0, 0x0E, 0xCF, 5, 2, 0, 0, 0, 0, 0x55, 0, 0};
    static const uint8_t mac[] = {2, 0, 0, 0, 0, 0x55};
    memcpy(octets, head, sizeof head);
    octets[sizeof head] = 20;
    memcpy(octets + sizeof head + 1, rest, sizeof rest);
    keep("a frame of LLDP", pn_controller_frame(&controller, &op, octets, sizeof head + 1 + sizeof rest));
    memset(&neighbour, 0xEE, sizeof neighbour);
    wants("a neighbour", pn_controller_neighbour(&controller, &op, &neighbour), PN_OK);
    if (memcmp(neighbour.mac, mac, sizeof mac) != 0 || neighbour.port_length != 6 || memcmp(neighbour.port, "port-3", 6) != 0 ||
        neighbour.chassis_length != 8 || memcmp(neighbour.chassis, "switch-a", 8) != 0) {
        printf("the neighbour is port '%.*s' of '%.*s'\n", (int)neighbour.port_length, (const char *)neighbour.port, (int)neighbour.chassis_length,
               (const char *)neighbour.chassis);
        exit(1);
    }
    octets[sizeof head] = 0;
    keep("its last frame", pn_controller_frame(&controller, &op, octets, sizeof head + 1 + sizeof rest));
    wants("no neighbour after that", pn_controller_neighbour(&controller, &op, &neighbour), PN_NO_SLOT);
}

/* The calls of a tool without what they need, and with what they refuse. */
static void misuse_tool(void)
{
    pn_tool tool = {{2, 0, 0, 0, 0, 2}, {192, 168, 0, 1}, 3};
    static const pn_target target = {{2, 0, 0, 0, 0, 1}, {192, 168, 0, 2}, 291, 1110};
    pn_search search;
    memset(&search, 0xFF, sizeof search);
    memcpy(&before, &controller, sizeof before); /* none of these calls has a controller */
    wants("no tool that asks", pn_tool_ask(NULL, &search, &op, octets, 3), PN_NULL);
    wants("no search to ask for", pn_tool_ask(&tool, NULL, &op, octets, 3), PN_NULL);
    wants("no operation to ask with", pn_tool_ask(&tool, &search, NULL, octets, 3), PN_NULL);
    wants("no place to ask for", pn_tool_ask(&tool, &search, &op, NULL, 3), PN_NULL);
    wants("an empty place", pn_tool_ask(&tool, &search, &op, octets, 0), PN_BAD_LENGTH);
    wants("a place that is too long", pn_tool_ask(&tool, &search, &op, octets, 512), PN_BAD_LENGTH);
    wants("a search that was refused stays", search.stations, UINT32_MAX);
    wants("and so does the number of the tool", tool.xid, 3);
    wants("the longest place", pn_tool_ask(&tool, &search, &op, octets, 511), PN_OK);
    wants("the number of the search", search.xid, 4);
    wants("nobody yet", search.stations | search.is_told | search.length, 0);
    wants("no tool that hears", pn_tool_heard(NULL, &search, octets, 60), PN_NULL);
    wants("no search", pn_tool_heard(&tool, NULL, octets, 60), PN_NULL);
    wants("no frame", pn_tool_heard(&tool, &search, NULL, 0), PN_NULL);
    wants("a frame of nothing", pn_tool_heard(&tool, &search, octets, 0), PN_OK);
    wants("a frame that is too long", pn_tool_heard(&tool, &search, octets, sizeof octets), PN_OK);
    wants("nobody to name", pn_tool_give(&tool, &search, &op, (const uint8_t *)"a", 1), PN_NOBODY);
    wants("no name", pn_tool_give(&tool, &search, &op, NULL, 0), PN_NULL);
    wants("no search to name by", pn_tool_give(&tool, NULL, &op, (const uint8_t *)"a", 1), PN_NULL);
    wants("no valid name", pn_tool_give(&tool, &search, &op, (const uint8_t *)"A", 1), PN_PLAN_NAME);
    search.stations = 1, search.is_told = 1;
    wants("one to name", pn_tool_give(&tool, &search, &op, (const uint8_t *)"a", 1), PN_OK);
    search.length = UINT32_MAX; /* a search that no call wrote */
    wants("one with a name without end", pn_tool_give(&tool, &search, &op, (const uint8_t *)"a", 1), PN_HAS_NAME);
    search.stations = UINT32_MAX, search.is_told = UINT32_MAX;
    wants("very many", pn_tool_give(&tool, &search, &op, (const uint8_t *)"a", 1), PN_SEVERAL);
    search.stations = 1;
    wants("one that tells nothing", pn_tool_give(&tool, &search, &op, (const uint8_t *)"a", 1), PN_NAME_UNTOLD);
    wants("no answer to a name", pn_tool_given(&tool, &search, &op, octets, 60), PN_NO_ANSWER);
    wants("no frame of a name", pn_tool_given(&tool, &search, &op, NULL, 60), PN_NULL);
    wants("a read", pn_tool_ask_record(&tool, &target, activity, &op, 0, 0, 0xF841), PN_OK);
    wants("no target of a read", pn_tool_ask_record(&tool, NULL, activity, &op, 0, 0, 0), PN_NULL);
    wants("no activity of a read", pn_tool_ask_record(&tool, &target, NULL, &op, 0, 0, 0), PN_NULL);
    wants("no answer to a read", pn_tool_record_in(&tool, activity, &op, octets, 60), PN_NO_ANSWER);
    wants("no frame of a read", pn_tool_record_in(&tool, activity, &op, NULL, 60), PN_NULL);
    for (uint32_t what = 0; what < 44; what++)
        if ((strcmp(pn_strerror(what), pn_strerror(UINT32_MAX)) == 0) != (what == 32)) {
            printf("the text of %u\n", (unsigned)what);
            exit(1);
        }
}

static uint32_t drawn(void)
{
    static uint64_t seed = 1;
    seed = seed * 6364136223846793005u + 1442695040888963407u;
    return (uint32_t)(seed >> 33);
}

/* Makes a catalogue with some octets changed, removed, or inserted from elsewhere. Returns its length. */
static size_t bend(size_t length)
{
    memcpy(made, text, length);
    for (uint32_t times = 1 + drawn() % 3; times != 0 && length > 8; times--) {
        size_t at = drawn() % length, from = drawn() % length, much = 1 + drawn() % 6;
        switch (drawn() % 4) {
        case 0: made[at] = (uint8_t)drawn(); break;
        case 1: made[at] = text[from]; break;
        case 2:
            much = much < length - at ? much : length - at;
            memmove(made + at, made + at + much, length - at - much);
            length -= much;
            break;
        default: length = drawn() % 8 == 0 ? at : length; break;
        }
    }
    return length;
}

static void bend_catalogues(size_t length, unsigned long times)
{
    unsigned long faults[PN_PLAN_ADDRESS + 1] = {0};
    char where[64];
    for (unsigned long i = 0; i < times; i++) {
        size_t now = bend(length);
        uint32_t fault = pn_plan_read(&bent, made, now), found = pn_plan_where(made, now, where, sizeof where);
        if (fault > PN_PLAN_ADDRESS || (found != 0 && strlen(where) >= sizeof where) || pn_plan_read(&bent, made, now) != fault)
            exit(1);
        faults[fault]++;
        if (fault == PN_OK && pn_controller_start(&controller, &bent, ar, activity) != PN_OK)
            exit(1);
        /* A fault of a key is reported with it, except the faults of the whole catalogue. */
        if ((fault == PN_OK) != (found == 0) && (fault < PN_PLAN_NOT_ALLOWED) && fault != PN_PLAN_JSON) {
            printf("fault %u and a place %u: %.*s\n", (unsigned)fault, (unsigned)found, (int)now, (const char *)made);
            exit(1);
        }
    }
    printf("%u misuses; %lu bent catalogues: %lu are plans, faults", count, times, faults[0]);
    for (unsigned i = PN_PLAN_JSON; i <= PN_PLAN_ADDRESS; i++)
        printf(" %lu", faults[i]);
    puts("");
}

/* --- A plan that a host writes, and a catalogue with the same content --- */

static char said[65536];
static size_t said_length;

static void say(const char *form, ...)
{
    va_list rest;
    va_start(rest, form);
    said_length += (size_t)vsnprintf(said + said_length, sizeof said - said_length, form, rest);
    va_end(rest);
}

static void say_data(const char *key, unsigned size)
{
    say("\"%s\":[", key);
    for (unsigned left = size; left != 0;) {
        unsigned some = left < 1440 ? left : 1440;
        left -= some;
        say("{\"DataType\":\"OctetString\",\"Length\":%u}%s", some, left != 0 ? "," : "");
    }
    say("]");
}

static void say_submodules(const pn_module *module)
{
    say("\"ModuleIdentNumber\":%u,\"VirtualSubmoduleItem\":[", (unsigned)module->ident);
    for (unsigned i = 0; i < module->submodule_count; i++) {
        const pn_submodule *part = &module->submodules[i];
        say("%s{\"Subslot\":%u,\"SubmoduleIdentNumber\":%u,\"IOData\":{", i != 0 ? "," : "", part->subslot, (unsigned)part->ident);
        say_data("Input", part->input), say(","), say_data("Output", part->output);
        say("},\"ParameterRecordDataItem\":[");
        for (unsigned k = 0; k < part->parameter_count; k++)
            say("%s{\"Index\":%u,\"Length\":%u}", k != 0 ? "," : "", part->parameters[k].index, part->parameters[k].length);
        say("]}");
    }
    say("]");
}

static void say_record(const pn_record *record, unsigned number)
{
    say("%s{\"Subslot\":%u,\"Index\":%u,\"Data\":\"", number != 0 ? "," : "", record->subslot, record->index);
    for (unsigned i = 0; i < record->length && i < sizeof record->octets; i++)
        say("%02x", record->octets[i]);
    say("\"}");
}

/* How many of the first modules are in a slot. */
static unsigned uses_of(const pn_plan *from, unsigned slot, unsigned modules)
{
    unsigned uses = 0;
    for (unsigned i = 0; i < modules; i++)
        uses += from->modules[i].slot == slot;
    return uses;
}

/* A slot with its records, in their order; if the slot occurs twice, they are written once. */
static void say_slot(const pn_plan *from, unsigned slot, const char *target, unsigned uses)
{
    unsigned number = 0;
    say("{\"Slot\":%u,\"ModuleItemTarget\":\"%s\",\"Records\":[", slot, target);
    for (unsigned i = 0; i < from->record_count && uses == 0; i++)
        if (from->records[i].slot == slot)
            say_record(&from->records[i], number++);
    say("]}");
}

static void say_modules(const pn_plan *from)
{
    say("\"ModuleItem\":[");
    for (unsigned i = 1; i < from->module_count; i++)
        say("%s{\"ID\":\"M%u\",", i != 1 ? "," : "", i), say_submodules(&from->modules[i]), say("}");
    say("],");
}

static void say_point(const pn_plan *from)
{
    say("\"DeviceAccessPointItem\":{\"DNS_CompatibleName\":\"pn-demo\",\"MinDeviceInterval\":1,\"PhysicalSlots\":[0");
    for (unsigned i = 1; i < from->module_count; i++)
        say(",%u", from->modules[i].slot);
    say("],"), say_submodules(&from->modules[0]), say(",\"ModuleItemRef\":[");
    for (unsigned i = 1; i < from->module_count; i++)
        say("%s{\"ModuleItemTarget\":\"M%u\",\"AllowedInSlots\":[%u]}", i != 1 ? "," : "", i, from->modules[i].slot);
    say("]},");
}

static void say_address(const char *key, const uint8_t *at)
{
    say("\"%s\":\"%u.%u.%u.%u\",", key, at[0], at[1], at[2], at[3]);
}

static void say_plan(const pn_plan *from)
{
    char target[16];
    const uint8_t *mac = from->controller_mac;
    said_length = 0;
    say("{\"DeviceIdentity\":{\"VendorID\":%u,\"DeviceID\":%u},", from->vendor_id, from->device_id);
    say_point(from), say_modules(from);
    say("\"Project\":{\"NameOfStation\":\"%.*s\",", (int)from->name_length, (const char *)from->name);
    say_address("IPAddress", from->address), say_address("SubnetMask", from->mask), say_address("Gateway", from->gateway);
    say("\"Controller\":{\"NameOfStation\":\"%.*s\",", (int)from->controller_name_length, (const char *)from->controller_name);
    say_address("IPAddress", from->controller_address);
    say("\"MAC\":\"%02X-%02X-%02X-%02X-%02X-%02X\"},", mac[0], mac[1], mac[2], mac[3], mac[4], mac[5]);
    say("\"SendClockFactor\":%u,\"ReductionRatio\":%u,\"DataHoldFactor\":%u,\"Slots\":[", from->send_clock_factor,
        from->reduction_ratio, from->data_hold_factor);
    for (unsigned i = 1; i < from->module_count; i++) {
        snprintf(target, sizeof target, "M%u", i);
        say_slot(from, from->modules[i].slot, target, uses_of(from, from->modules[i].slot, i));
        say(i + 1 < from->module_count ? "," : "");
    }
    /* A record of a slot without a module. */
    for (unsigned i = 0; i < from->record_count; i++)
        if (uses_of(from, from->records[i].slot, from->module_count) == 0)
            say(","), say_slot(from, from->records[i].slot, "none", 0);
    say("]}}");
}

static unsigned one_of(unsigned a, unsigned b, unsigned c, unsigned d)
{
    const unsigned all[] = {a, b, c, d};
    return all[drawn() % 4];
}

/* Changes one number of a valid plan, mostly to one at an end of a range. */
static void bend_number(void)
{
    pn_module *module = &bent.modules[drawn() % 3];
    pn_submodule *part = &module->submodules[0], *last = &bent.modules[0].submodules[2];
    pn_record *record = &bent.records[drawn() % 2];
    switch (drawn() % 18) {
    case 0: bent.send_clock_factor = (uint16_t)one_of(0, 1, 128, 129); break;
    case 1: bent.reduction_ratio = (uint16_t)one_of(0, 1, 512, 513); break;
    case 2: bent.data_hold_factor = (uint16_t)one_of(0, 1, 7680, 7681); break;
    case 3: module->ident = one_of(0, 1, 0xFFFF, 0xFFFFFFFF); break;
    case 4: part->ident = one_of(0, 1, 0xFFFF, 0xFFFFFFFF); break;
    case 5: bent.modules[1].submodules[0].subslot = (uint16_t)one_of(0, 1, 36863, 36864); break;
    case 6: last->subslot = (uint16_t)one_of(36863, 36864, 32768, 65535); break;
    case 7: bent.modules[1].submodules[0].parameters[1].index = (uint16_t)one_of(0, 1, 32767, 32768); break;
    case 8: bent.modules[1].submodules[0].parameters[0].length = (uint16_t)one_of(0, 1, 64, 65); break;
    case 9: record->index = (uint16_t)one_of(0, 1, 32767, 0xFFFF); break;
    case 10: record->subslot = (uint16_t)one_of(0, 1, 2, 0xFFFF); break;
    case 11: record->slot = (uint16_t)one_of(1, 2, 3, 15); break;
    case 12: record->length = (uint16_t)one_of(0, 1, 4, 64); break;
    case 13: bent.controller_address[0] = (uint8_t)one_of(0, 126, 127, 224); break;
    case 14: bent.address[0] = (uint8_t)one_of(0, 128, 223, 255); break;
    case 15: bent.controller_mac[0] = (uint8_t)one_of(0, 1, 2, 3); break;
    case 16: bent.modules[2].slot = (uint16_t)one_of(1, 2, 15, 16); break;
    default: part->input = (uint16_t)one_of(0, 1400, 1440, 65535); break;
    }
}

/* A plan that a host writes has the fault of the catalogue with the same content, or both are the same plan. */
static void bend_both(unsigned long times)
{
    static pn_plan other;
    unsigned long taken = 0;
    for (unsigned long i = 0; i < times; i++) {
        uint32_t fault, found;
        bend_again();
        for (uint32_t bends = drawn() % 4; bends != 0; bends--)
            bend_number();
        say_plan(&bent);
        fault = pn_plan_fault(&bent), found = pn_plan_read(&other, (const uint8_t *)said, said_length);
        if (fault != found || (fault == PN_OK && memcmp(&bent, &other, sizeof bent) != 0)) {
            printf("a plan has the fault %u, and its catalogue %u: %.*s\n", (unsigned)fault, (unsigned)found, (int)said_length, said);
            exit(1);
        }
        taken += fault == PN_OK;
    }
    printf("%lu plans beside their catalogues, %lu without a fault\n", times, taken);
}

int main(int words_count, char *words[])
{
    FILE *file = words_count == 3 ? fopen(words[1], "rb") : NULL;
    size_t length;
    if (file == NULL)
        return 64;
    length = fread(text, 1, sizeof text, file);
    fclose(file);
    memset(&before, 0, sizeof before);
    wants("no text", pn_plan_read(&plan, NULL, 0), PN_NULL);
    wants("no plan's room", pn_plan_read(NULL, text, length), PN_NULL);
    wants("another plan", pn_plan_make(text, length, sizeof plan - 4, &plan), PN_BAD_ABI);
    wants("the catalogue", pn_plan_read(&plan, text, length), PN_OK);
    misuse();
    hears_neighbour();
    misuse_tool();
    bend_both(strtoul(words[2], NULL, 10));
    bend_catalogues(length, strtoul(words[2], NULL, 10));
    return 0;
}
