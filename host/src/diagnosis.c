#define _GNU_SOURCE
#include "diagnosis.h"
#include "alarms.h"
#include "lines.h"
#include "reasons.h"
#include "relation.h"
#include "statuses.h"
#include <stdio.h>
#include <string.h>

/* Records: the diagnosis of the relation's submodules, and of all. */
#define OF_RELATION 0xE00Cu
#define OF_DEVICE 0xF80Cu

#define DIAGNOSIS_DATA 0x0010u    /* a BlockType */
#define HEADER 6u                 /* BlockType, BlockLength, BlockVersion */
#define CHANNEL_DIAGNOSIS 0x8000u /* a UserStructureIdentifier */
#define CHANNEL 6u                /* octets of a ChannelDiagnosis */

static unsigned two(const uint8_t *octets)
{
    return (unsigned)octets[0] << 8 | octets[1];
}

int diagnosis_has(const struct diagnoses *diagnoses, const struct diagnosis *wanted)
{
    for (unsigned i = 0; i < diagnoses->count; i++) {
        const struct diagnosis *one = &diagnoses->list[i];
        if (one->slot == wanted->slot && one->subslot == wanted->subslot && one->channel == wanted->channel && one->error == wanted->error)
            return 1;
    }
    return 0;
}

static void add(struct diagnoses *diagnoses, const struct diagnosis *one)
{
    if (diagnosis_has(diagnoses, one))
        return;
    if (diagnoses->count == PN_DIAGNOSES)
        diagnoses->others++;
    else
        diagnoses->list[diagnoses->count++] = *one;
}

/* --- The record --- */

/* Reads a block's body, from its slot on. */
static int read_body(struct diagnoses *diagnoses, const uint8_t *body, size_t length)
{
    struct diagnosis one;
    if (length < 10)
        return 0;
    one = (struct diagnosis){.slot = (uint16_t)two(body), .subslot = (uint16_t)two(body + 2)};
    if (two(body + 8) != CHANNEL_DIAGNOSIS) {
        diagnoses->others++;
        return 1;
    }
    for (size_t at = 10; at < length; at += CHANNEL) {
        if (length - at < CHANNEL)
            return 0;
        one.channel = (uint16_t)two(body + at);
        one.error = (uint16_t)two(body + at + 4);
        add(diagnoses, &one);
    }
    return 1;
}

/* Reads a block of version 1.1, which has the API before its slot, or of version 1.0, which has none. */
static int read_block(struct diagnoses *diagnoses, const uint8_t *octets, size_t length)
{
    size_t front = octets[5] == 0 ? HEADER : HEADER + 4;
    if (two(octets) != DIAGNOSIS_DATA || octets[4] != 1 || octets[5] > 1 || length < front)
        return 0;
    return read_body(diagnoses, octets + front, length - front);
}

int diagnosis_read(struct diagnoses *diagnoses, const uint8_t *octets, size_t length)
{
    diagnoses->count = diagnoses->others = 0;
    while (length != 0) {
        size_t whole = length < HEADER ? 0 : two(octets + 2) + 4u;
        if (whole < HEADER || whole > length || !read_block(diagnoses, octets, whole))
            return 0;
        octets += whole;
        length -= whole;
    }
    return 1;
}

/* --- The lines --- */

/* `SLOT SUBSLOT CHANNEL ERROR (TEXT)`. */
const char *diagnosis_words(const struct texts *texts, const struct diagnosis *one, char text[DIAGNOSIS_WORDS])
{
    const char *name = alarms_error(texts, one->error);
    snprintf(text, DIAGNOSIS_WORDS, "%u %u %u %u (%s%s)", one->slot, one->subslot, one->channel, one->error, *name == '\0' ? "an error of its maker" : name,
             one->channel == 0x8000 ? ", the submodule" : "");
    return text;
}

/* What the alarms reported. Returns how many found no room in the list of the controller. */
static uint32_t reported(struct relation *relation, struct diagnoses *diagnoses)
{
    pn_op *op = &relation->op;
    uint32_t count = 0, left_out = 0;
    diagnoses->count = diagnoses->others = 0;
    loop_must(pn_controller_diagnoses(&relation->room, op, &count, &left_out), "pn_controller_diagnoses");
    for (uint32_t i = 0; i < count; i++) {
        loop_must(pn_controller_diagnosis(&relation->room, op, i), "pn_controller_diagnosis");
        diagnoses->list[diagnoses->count++] =
            (struct diagnosis){(uint16_t)op->slot, (uint16_t)op->subslot, (uint16_t)op->channel, (uint16_t)op->error};
    }
    return left_out;
}

static void list(struct relation *relation)
{
    struct lines *lines = &relation->loop->lines;
    struct diagnoses diagnoses;
    uint32_t left_out = reported(relation, &diagnoses);
    char text[DIAGNOSIS_WORDS];
    for (unsigned i = 0; i < diagnoses.count; i++)
        lines_answer(lines, "diagnosis %s", diagnosis_words(&relation->texts, &diagnoses.list[i], text));
    if (diagnoses.count == 0)
        lines_answer(lines, "diagnosis -");
    if (left_out != 0)
        lines_answer(lines, "diagnosis left out %u: the list has room for %u", (unsigned)left_out, PN_DIAGNOSES);
}

void diagnosis_take(struct relation *relation, char *words[])
{
    if (strcmp(words[1], "reported") == 0) {
        list(relation);
    } else if (strcmp(words[1], "relation") == 0) {
        list(relation);
        access_read_diagnosis(relation, OF_RELATION);
    } else if (strcmp(words[1], "device") == 0) {
        list(relation);
        access_read_diagnosis(relation, OF_DEVICE);
    } else {
        lines_answer(&relation->loop->lines, "wrong: diagnosis reported|relation|device");
    }
}

/* Reports the ones of a list that another one does not have. Returns how many. */
static unsigned tell_missing(struct relation *relation, const char *where, const struct diagnoses *list, const struct diagnoses *other)
{
    struct lines *lines = &relation->loop->lines;
    char text[DIAGNOSIS_WORDS];
    unsigned missing = 0;
    for (unsigned i = 0; i < list->count; i++) {
        if (diagnosis_has(other, &list->list[i]))
            continue;
        missing++;
        lines_tell(lines, "diagnosis only in %s: %s", where, diagnosis_words(&relation->texts, &list->list[i], text));
    }
    return missing;
}

void diagnosis_compare(struct relation *relation, const struct access_answer *answer)
{
    struct lines *lines = &relation->loop->lines;
    struct diagnoses record, alarms;
    char status[STATUSES_LONGEST + 32], others[64] = "";
    unsigned index = relation->access.index, different;
    int is_whole;
    if (answer->is_refused) {
        reasons_status(answer->status, status, sizeof status);
        lines_tell(lines, "diagnosis 0x%04X refused: %s", index, status);
        return;
    }
    /* The answer lies in the operation that the next call uses. */
    is_whole = diagnosis_read(&record, answer->octets, answer->length);
    (void)reported(relation, &alarms);
    if (!is_whole) {
        lines_tell(lines, "diagnosis 0x%04X not compared: its blocks are not whole", index);
        return;
    }
    if (record.others != 0)
        snprintf(others, sizeof others, ", %u of another structure", record.others);
    different = tell_missing(relation, "the alarms", &alarms, &record) + tell_missing(relation, "the record", &record, &alarms);
    lines_tell(lines, "diagnosis 0x%04X %s: %u by alarms, %u in the record%s", index, different == 0 ? "the same" : "different", alarms.count,
               record.count, others);
}
