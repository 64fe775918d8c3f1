#include "statuses.h"
#include <stdio.h>

#define SEE_MANUAL "see the device's manual for this status"

struct meaning {
    uint32_t code;
    const char *name;
    const char *text; /* for who made the plan; NULL if the name says all */
};

static const struct meaning *meaning_in(const struct meaning *list, size_t count, uint32_t code)
{
    for (size_t i = 0; i < count; i++)
        if (list[i].code == code)
            return &list[i];
    return NULL;
}

#define MEANING_IN(list, code) meaning_in(list, sizeof list / sizeof list[0], code)

/* --- A record (ErrorDecode 0x80, PNIORW) --- */

static const struct meaning accesses[] = {
    {0xA0, "application: read error", "the device could not read it"},
    {0xA1, "application: write error", "the device could not store it"},
    {0xA2, "application: module failure", "the module does not work"},
    {0xA7, "application: busy", "the device is busy: try it again"},
    {0xA8, "application: version conflict", "the record is of another version"},
    {0xA9, "application: feature not supported", "the device does not support this"},
    {0xB0, "access: invalid index", "there is no such record"},
    {0xB1, "access: write length error", "the device expects another length"},
    {0xB2, "access: invalid slot/subslot", "there is no such slot or subslot"},
    {0xB3, "access: type conflict", "the record is of another kind"},
    {0xB4, "access: invalid area", "there is no such API"},
    {0xB5, "access: state conflict", "the device does not accept it in its present state"},
    {0xB6, "access: access denied", "it must not be read or written"},
    {0xB7, "access: invalid range", "a value is out of its range"},
    {0xB8, "access: invalid parameter", "a value is not valid"},
    {0xB9, "access: invalid type", "a value is of another type"},
    {0xBA, "access: backup", "the device is the backup of a redundant one"},
    {0xC0, "resource: read constrain conflict", "another one reads it at present"},
    {0xC1, "resource: write constrain conflict", "another one writes it at present"},
    {0xC2, "resource: resource busy", "the device has no resource for it at present: try it again"},
    {0xC3, "resource: resource unavailable", "the device has no resource for it"},
};

/* --- A block of a call, or a part of the device (ErrorDecode 0x81, PNIO) --- */

static const struct meaning parts[] = {
    {1, "Connect: Faulty ARBlockReq", "the ARBlockReq"},
    {2, "Connect: Faulty IOCRBlockReq", "an IOCRBlockReq"},
    {3, "Connect: Faulty ExpectedSubmoduleBlockReq", "an ExpectedSubmoduleBlockReq"},
    {4, "Connect: Faulty AlarmCRBlockReq", "the AlarmCRBlockReq"},
    {8, "Read/Write Record: Faulty Record", "the block of the call"},
    {20, "IODControl: Faulty ControlBlockConnect", "the ControlBlockConnect"},
    {21, "IODControl: Faulty ControlBlockPlug", NULL},
    {22, "IOXControl: Faulty ControlBlock after a connect est.", NULL},
    {23, "IOXControl: Faulty ControlBlock a plug alarm", NULL},
    {40, "Release: Faulty ReleaseBlock", "the ReleaseBlock"},
    {60, "AlarmAck Error Codes", NULL},
    {61, "CMDEV", NULL},
    {62, "CMCTL", NULL},
    {63, "CTLDINA", NULL},
    {64, "CMRPC", NULL},
    {65, "ALPMI", NULL},
    {66, "ALPMR", NULL},
    {67, "LMPM", NULL},
    {68, "MAC", NULL},
    {69, "RPC", NULL},
    {70, "APMR", NULL},
    {71, "APMS", NULL},
    {72, "CPM", NULL},
    {73, "PPM", NULL},
    {74, "DCPUCS", NULL},
    {75, "DCPUCR", NULL},
    {76, "DCPMCS", NULL},
    {77, "DCPMCR", NULL},
    {78, "FSPM", NULL},
    {200, "CMSM", NULL},
    {202, "CMRDR", NULL},
    {204, "CMWRR", NULL},
    {205, "CMIO", NULL},
    {206, "CMSU", NULL},
    {208, "CMINA", NULL},
    {209, "CMPBE", NULL},
    {210, "CMSRL", NULL},
    {211, "CMDMC", NULL},
    {212, "CMSAM", NULL},
    {253, "RTA_ERR_CLS_PROTOCOL", NULL},
    {255, "User specific", NULL},
};

static const struct meaning connections[] = {
    {0, "ArgsLength invalid", "a length in the call is wrong for the device"},
    {1, "Unknown Blocks", "the device does not know a block of the call, or misses one"},
    {2, "IOCR Missing", "the device misses an IOCRBlockReq"},
    {3, "Wrong AlarmCRBlock count", "the device expects one AlarmCRBlockReq"},
    {4, "Out of AR Resources", "the device has a relation with another controller, or no room for one more"},
    {5, "AR UUID unknown", "the device does not know this relation"},
    {6, "State conflict", "the device is in another state of the relation"},
    {7, "Out of Provider, Consumer or Alarm Resources", "the device has no room for the cyclic data or the alarms"},
    {8, "Out of Memory", "the device has no memory left"},
    {9, "Pdev already owned", "another controller has the interface and the ports of the device"},
    {10, "ARset State conflict during connection establishment", NULL},
    {11, "ARset Parameter conflict during connection establishment", NULL},
    {12, "Pdev, port(s) without interface", "the plan has a port without its interface"},
};

/* The field of an IOCRBlockReq that a key of the plan sets, and the key. Fields are counted from 0, BlockType. */
static const char *iocr_words(uint8_t field)
{
    switch (field) {
    case 8: return ", DataLength (plan: IOData of the modules in Project.Slots)";
    case 10: return ", SendClockFactor (plan: Project.SendClockFactor)";
    case 11: return ", ReductionRatio (plan: Project.ReductionRatio)";
    case 15: return ", WatchdogFactor (plan: Project.DataHoldFactor)";
    case 16: return ", DataHoldFactor (plan: Project.DataHoldFactor)";
    default: return "";
    }
}

static void access_words(uint8_t code, char *text, size_t size)
{
    const struct meaning *found = MEANING_IN(accesses, code);
    if (found != NULL)
        snprintf(text, size, "%s: %s", found->name, found->text);
    else
        snprintf(text, size, SEE_MANUAL);
}

static void connection_words(uint8_t code, char *text, size_t size)
{
    const struct meaning *found = MEANING_IN(connections, code);
    if (found != NULL)
        snprintf(text, size, "CMRPC, %s: %s", found->name, found->text == NULL ? SEE_MANUAL : found->text);
    else
        snprintf(text, size, "CMRPC: " SEE_MANUAL);
}

static void part_words(uint8_t part, uint8_t code, char *text, size_t size)
{
    const struct meaning *found = MEANING_IN(parts, part);
    if (found == NULL)
        snprintf(text, size, SEE_MANUAL);
    else if (found->text == NULL)
        snprintf(text, size, "%s %u: " SEE_MANUAL, found->name, code);
    else
        snprintf(text, size, "%s: the device does not accept field %u of %s%s", found->name, code, found->text, part == 2 ? iocr_words(code) : "");
}

void statuses_pnio(const uint8_t s[4], char *text, size_t size)
{
    if (s[1] == 0x80)
        access_words(s[2], text, size);
    else if (s[1] == 0x81 && s[2] == 64)
        connection_words(s[3], text, size);
    else if (s[1] == 0x81)
        part_words(s[2], s[3], text, size);
    else
        snprintf(text, size, SEE_MANUAL);
}

/* --- The end of a relation by an ERR --- */

static const struct meaning aborts[] = {
    {1, "Error within the coordination of sequence numbers", "the numbers of its alarms and ours do not fit"},
    {2, "Instance closed", "its end of the alarms is closed"},
    {3, "AR out of memory", "it has no memory left"},
    {4, "AR add provider or consumer failed", "it has no room for the cyclic data"},
    {5, "AR consumer DHT/WDT expired", "its data hold time expired: no cyclic frame of this controller arrived"},
    {6, "AR cmi timeout", "its activity timeout expired"},
    {7, "AR alarm-open failed", "it could not open its end of the alarms"},
    {8, "AR alarm-send.cnf(-)", "an alarm of the device was not acknowledged"},
    {9, "AR alarm-ack-send.cnf(-)", "an AlarmAck of the device was not acknowledged"},
    {10, "AR alarm data too long", "an alarm is too long for it"},
    {11, "AR alarm.ind(err)", "it received an ERR"},
    {12, "AR rpc-client call.cnf(-)", "a call of the device was not answered, or refused"},
    {13, "AR abort.req", "it was reset, or ended the relation by itself"},
    {14, "AR re-run aborts existing", "a new Connect of this controller ended the relation"},
    {15, "AR release.ind received", "it received a Release"},
    {16, "AR device deactivated", "the device was switched off"},
    {17, "AR removed", "the relation was removed"},
    {18, "AR protocol violation", "it received what it did not expect"},
    {19, "AR name resolution error", "it did not find this controller"},
    {26, "AR AP removed", "its access point was pulled"},
    {27, "AR link down", "its link is down"},
    {31, "dcp, station-name changed", "its name was changed"},
    {32, "dcp, reset to factory-settings", "it was reset to the settings of the factory"},
    {37, "IP-Suite [of the IOC] changed by means of DCP_Set(IPParameter) or local engineering", "its address was changed"},
    {40, "Remote application ready timeout expired", "ApplicationReady was not answered in time"},
};

const char *statuses_abort(uint8_t code)
{
    const struct meaning *found = MEANING_IN(aborts, code);
    return found == NULL ? "see the device's manual for this code" : found->text;
}

/* --- A call that was rejected, or failed --- */

static const struct meaning calls[] = {
    {0x1C000001, "nca_s_fault_int_div_by_zero", NULL},
    {0x1C000002, "nca_s_fault_addr_error", NULL},
    {0x1C000003, "nca_s_fault_fp_div_zero", NULL},
    {0x1C000004, "nca_s_fault_fp_underflow", NULL},
    {0x1C000005, "nca_s_fault_fp_overflow", NULL},
    {0x1C000006, "nca_s_fault_invalid_tag", NULL},
    {0x1C000007, "nca_s_fault_invalid_bound", NULL},
    {0x1C000008, "nca_s_rpc_version_mismatch", "the device uses another version of the protocol"},
    {0x1C000009, "nca_s_unspec_reject", "the device rejects the call for a reason that it does not say"},
    {0x1C00000A, "nca_s_bad_actid", "the device does not accept the activity of the call"},
    {0x1C00000B, "nca_s_who_are_you_failed", "the device could not ask for the state of the activity"},
    {0x1C00000C, "nca_s_manager_not_entered", "the device did not begin the call"},
    {0x1C00000D, "nca_s_fault_cancel", "the call was cancelled"},
    {0x1C00000E, "nca_s_fault_ill_inst", NULL},
    {0x1C00000F, "nca_s_fault_fp_error", NULL},
    {0x1C000010, "nca_s_fault_int_overflow", NULL},
    {0x1C000012, "nca_s_fault_unspec", "the call failed in the device for a reason that it does not say"},
    {0x1C000013, "nca_s_fault_remote_comm_failure", "the device lost its connection"},
    {0x1C00001B, "nca_s_fault_remote_no_memory", "the device has no memory left"},
    {0x1C00001F, "nca_s_invalid_checksum", "the device found a wrong checksum"},
    {0x1C000024, "nca_s_fault_object_not_found", "the device is no such object: it has another VendorID or DeviceID"},
    {0x1C010001, "nca_s_comm_failure", "the device lost its connection"},
    {0x1C010002, "nca_s_op_rng_error", "the device has no such operation"},
    {0x1C010003, "nca_s_unk_if", "the device does not serve this interface: it is not ready yet, or no PROFINET device"},
    {0x1C010006, "nca_s_wrong_boot_time", "the device was started again since"},
    {0x1C010009, "nca_s_you_crashed", "the device was started again since"},
    {0x1C01000B, "nca_s_proto_error", "the device could not read the call"},
    {0x1C010013, "nca_s_out_args_too_big", "the answer is too long for the device"},
    {0x1C010014, "nca_s_server_too_busy", "the device is busy: try it again"},
    {0x1C010017, "nca_s_unsupported_type", "the device does not know the type of its object"},
};

void statuses_rejected(uint32_t status, char *text, size_t size)
{
    const struct meaning *found = MEANING_IN(calls, status);
    if (found == NULL)
        snprintf(text, size, SEE_MANUAL);
    else
        snprintf(text, size, "%s: %s", found->name, found->text == NULL ? "a fault of the device's program" : found->text);
}
