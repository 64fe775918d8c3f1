#include "reasons.h"
#include "calls.h"
#include "naming.h"
#include "statuses.h"
#include "wire.h"
#include <stdio.h>
#include <string.h>

/* The BlockError of a Set whose value the device does not accept. */
#define BLOCK_ERROR_VALUE 3u
/* The lowest ErrorCode of a PNIOStatus. The statuses of rejects and faults begin with a lower octet. */
#define LEAST_ERROR_CODE 0x20u
/* ErrorDecode PNIORW, and ErrorCode1 resource busy. */
#define DECODE_RECORD 0x80u
#define CODE_BUSY 0xC2u
/* The number of records of a list. */
#define LISTED 10u

static void hear_status(struct reasons *reasons, const uint8_t *octets)
{
    uint8_t status[4];
    calls_status(octets, status);
    if (memcmp(status, "\0\0\0\0", sizeof status) == 0)
        return;
    memcpy(reasons->status, status, sizeof status);
    reasons->sequence = calls_sequence(octets);
}

static void hear_response(struct reasons *reasons, const uint8_t *octets, size_t length)
{
    hear_status(reasons, octets);
    if (calls_sequence(octets) == 0)
        differences_read(&reasons->differences, octets, length);
}

/* The answer to a Set: blocks of Control.Response, each of option, suboption and BlockError. */
static void hear_set(struct reasons *reasons, const uint8_t *octets, size_t length)
{
    for (size_t at = 26; at + 7 <= length && octets[at] == 5 && octets[at + 1] == 4; at += 8)
        if (octets[at + 6] != 0)
            reasons->block_error = octets[at + 6];
}

static void hear_identity(struct reasons *reasons, const uint8_t *octets, size_t length)
{
    const uint8_t *identity = naming_identity(octets, length);
    reasons->has_identity = identity != NULL;
    if (identity != NULL)
        memcpy(reasons->identity, identity, sizeof reasons->identity);
}

void reasons_hear(struct reasons *reasons, const pn_plan *plan, const uint8_t *octets, size_t length)
{
    size_t at = wire_frame_id_at(octets, length);
    if (calls_is(octets, length, CALLS_RESPONSE))
        hear_response(reasons, octets, length);
    else if (calls_is(octets, length, CALLS_REJECT) || calls_is(octets, length, CALLS_FAULT))
        hear_status(reasons, octets);
    else if (naming_has_name(octets, length, plan->name, plan->name_length))
        hear_identity(reasons, octets, length);
    else if (at == 14 && length >= 26 && octets[14] == 0xFE && octets[15] == 0xFD && octets[16] == 4 && octets[17] == 1)
        hear_set(reasons, octets, length);
    else if (at != 0 && length >= at + 18 && octets[at] == 0xFE && octets[at + 1] == 0x01 && (octets[at + 6] & 15) == 4)
        memcpy(reasons->status, octets + at + 14, sizeof reasons->status);
}

int reasons_is_busy(const uint8_t status[4])
{
    return status[1] == DECODE_RECORD && status[2] == CODE_BUSY;
}

uint32_t reasons_written(const pn_plan *plan, uint32_t number, uint32_t *place)
{
    uint32_t each = plan->multiple_write != 0 ? LISTED : 1, rest;
    if (number == 0 || number > plan->record_count || (number - 1) * each >= plan->record_count)
        return 0;
    *place = (number - 1) * each;
    rest = plan->record_count - *place;
    return rest < each ? rest : each;
}

void reasons_record(const pn_plan *plan, uint32_t place, char *text, size_t size)
{
    const pn_record *record = &plan->records[place];
    snprintf(text, size, "Write of the record with index %u to slot %u subslot %u", record->index, record->slot, record->subslot);
}

void reasons_call(const pn_plan *plan, uint32_t sequence, char *text, size_t size)
{
    uint32_t place = 0, count = reasons_written(plan, sequence, &place);
    if (sequence == 0)
        snprintf(text, size, "Connect");
    else if (count > 1)
        snprintf(text, size, "Write of %u records, the first with index %u to slot %u subslot %u", (unsigned)count, plan->records[place].index,
                 plan->records[place].slot, plan->records[place].subslot);
    else if (count == 1)
        reasons_record(plan, place, text, size);
    else
        snprintf(text, size, sequence == 1 || reasons_written(plan, sequence - 1, &place) != 0 ? "PrmEnd" : "a call");
}

void reasons_status(const uint8_t s[4], char *text, size_t size)
{
    char words[STATUSES_LONGEST];
    uint32_t status = (uint32_t)s[0] << 24 | (uint32_t)s[1] << 16 | (uint32_t)s[2] << 8 | s[3];
    if (s[0] < LEAST_ERROR_CODE) {
        statuses_rejected(status, words, sizeof words);
        snprintf(text, size, "RPC status %08X: %s", (unsigned)status, words);
    } else {
        statuses_pnio(s, words, sizeof words);
        snprintf(text, size, "PNIOStatus %02X %02X %02X %02X: %s", s[0], s[1], s[2], s[3], words);
    }
}

const char *reasons_block_error(uint8_t error)
{
    static const char *const words[] = {"", "it has no such option", "it has no such suboption", "it does not accept the value", "it has no room left", "it has no power for its flash",
                                        "it is in a relation, and is not named or addressed in one"};
    return error < sizeof words / sizeof words[0] ? words[error] : "an unknown BlockError";
}

static void record_words(const pn_plan *plan, uint32_t refused, const uint8_t *status, char *text, size_t size)
{
    char record[96], words[STATUSES_LONGEST + 32];
    reasons_record(plan, refused, record, sizeof record);
    reasons_status(status, words, sizeof words);
    snprintf(text, size, ": %s, %s", record, words);
}

static void refusal_words(const struct reasons *reasons, const pn_plan *plan, char *text, size_t size)
{
    char call[128], status[STATUSES_LONGEST + 32];
    reasons_call(plan, reasons->sequence - reasons->tries, call, sizeof call);
    reasons_status(reasons->status, status, sizeof status);
    snprintf(text, size, ": %s, %s", call, status);
}

static void difference_words(const struct reasons *reasons, const pn_plan *plan, char *text, size_t size)
{
    const struct difference *found = differences_unusable(&reasons->differences);
    char words[DIFFERENCES_LONGEST];
    if (found == NULL)
        return;
    differences_words(found, plan, words, sizeof words);
    snprintf(text, size, ": %s", words);
}

static void set_words(uint8_t error, char *text, size_t size)
{
    snprintf(text, size, ": the Set of its address, BlockError %u: %s%s", error, reasons_block_error(error),
             error == BLOCK_ERROR_VALUE ? " (plan: Project.IPAddress, Project.SubnetMask, Project.Gateway)" : "");
}

void reasons_words(const struct reasons *reasons, const pn_plan *plan, uint32_t cause, uint32_t refused, const uint8_t *status, char *text,
                   size_t size)
{
    const uint8_t *s = reasons->status, *identity = reasons->identity;
    text[0] = '\0';
    if (cause == PN_WRONG_DEVICE && reasons->has_identity)
        snprintf(text, size, ": VendorID %u DeviceID %u, and in the plan %u and %u (DeviceIdentity.VendorID, DeviceIdentity.DeviceID)",
                 (unsigned)(identity[0] << 8 | identity[1]), (unsigned)(identity[2] << 8 | identity[3]), plan->vendor_id, plan->device_id);
    else if (cause == PN_WAS_REFUSED && status != NULL)
        record_words(plan, refused, status, text, size);
    else if (cause == PN_WAS_REFUSED && memcmp(s, "\0\0\0\0", 4) != 0)
        refusal_words(reasons, plan, text, size);
    else if (cause == PN_WAS_REFUSED && reasons->block_error != 0)
        set_words(reasons->block_error, text, size);
    else if (cause == PN_MODULE_DIFF)
        difference_words(reasons, plan, text, size);
    else if (cause == PN_ABORTED && s[0] == 0xCF)
        snprintf(text, size, ": ERR %u: %s", s[3], statuses_abort(s[3]));
}
