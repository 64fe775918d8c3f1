#define _GNU_SOURCE
#include "access.h"
#include "diagnosis.h"
#include "lines.h"
#include "reasons.h"
#include "relation.h"
#include "statuses.h"
#include "words.h"
#include <inttypes.h>
#include <stdio.h>
#include <string.h>

#define FIRST_PAUSE (5 * SECOND)

static const char *verb(const struct access *access)
{
    return access->is_write ? "write" : "read";
}

void access_spell(uint8_t status[4], uint32_t value)
{
    for (int i = 0; i < 4; i++)
        status[i] = (uint8_t)(value >> (24 - 8 * i));
}

int access_place(char *words[], struct access *access)
{
    unsigned long slot, subslot, index;
    if (!words_number(words[0], 65535, &slot) || !words_number(words[1], 65535, &subslot) || !words_index(words[2], &index))
        return 0;
    access->slot = (uint16_t)slot;
    access->subslot = (uint16_t)subslot;
    access->index = (uint16_t)index;
    return 1;
}

/* Hands in a request, unless another one waits. */
static void ask(struct relation *relation, const struct access *wanted, const uint8_t *octets, size_t length)
{
    struct lines *lines = &relation->loop->lines;
    const struct access *access = &relation->access;
    if (relation->state != PN_DATA_EXCHANGE) {
        lines_answer(lines, "wrong: no data is exchanged, the state is %s", relation_state(relation));
    } else if (access->is_waiting) {
        lines_answer(lines, "wrong: the %s of index %u in slot %u subslot %u waits for its answer", verb(access), access->index, access->slot,
                     access->subslot);
    } else if (!relation_request(relation, wanted, octets, length)) {
        lines_answer(lines, "wrong: no data is exchanged, the relation has ended");
    } else {
        relation->access = *wanted;
        relation->access.is_waiting = 1;
        relation->access.since = ticker_now();
        relation->access.pause = FIRST_PAUSE;
        lines_answer(lines, "state %s", relation_state(relation));
    }
}

void access_read(struct relation *relation, char *words[])
{
    struct access wanted = {.is_write = 0};
    if (access_place(words + 1, &wanted))
        ask(relation, &wanted, NULL, 0);
    else
        lines_answer(&relation->loop->lines, "wrong: read " ACCESS_PLACE);
}

void access_read_diagnosis(struct relation *relation, unsigned index)
{
    struct access wanted = {.is_diagnosis = 1, .index = (uint16_t)index};
    ask(relation, &wanted, NULL, 0);
}

void access_write(struct relation *relation, char *words[])
{
    struct access wanted = {.is_write = 1};
    uint8_t octets[ACCESS_RECORD];
    long length = strcmp(words[4], "-") == 0 ? 0 : words_octets(words[4], octets, sizeof octets);
    if (access_place(words + 1, &wanted) && length >= 0)
        ask(relation, &wanted, octets, (size_t)length);
    else
        lines_answer(&relation->loop->lines, "wrong: write SLOT SUBSLOT INDEX HEX, each number from 0 to 65535, at most %d octets, - for none",
                     ACCESS_RECORD);
}

void access_words(const struct access *access, const struct access_answer *answer, char *text, size_t size)
{
    char label[64], status[STATUSES_LONGEST + 32];
    snprintf(label, sizeof label, "%s %u %u %u", verb(access), access->slot, access->subslot, access->index);
    if (answer->is_refused) {
        reasons_status(answer->status, status, sizeof status);
        snprintf(text, size, "%s refused: %s", label, status);
    } else if (access->is_write) {
        snprintf(text, size, "%s done", label);
    } else if (answer->length == 0) {
        snprintf(text, size, "%s -", label);
    } else {
        words_labelled(text, size, label, answer->octets, answer->length);
    }
}

/* Reports an answer. */
static void tell(struct relation *relation, const struct access_answer *answer)
{
    char text[ACCESS_TEXT];
    access_words(&relation->access, answer, text, sizeof text);
    lines_tell(&relation->loop->lines, "%s", text);
}

void access_look(struct relation *relation)
{
    struct access_answer answer;
    if (!relation->access.is_waiting || !relation_answer(relation, &answer))
        return;
    relation->access.is_waiting = 0;
    if (relation->access.is_diagnosis)
        diagnosis_compare(relation, &answer);
    else
        tell(relation, &answer);
}

void access_tell_waiting(struct relation *relation)
{
    struct access *access = &relation->access;
    uint64_t passed = ticker_now() - access->since;
    if (!access->is_waiting || passed < access->pause)
        return;
    access->pause *= 2;
    lines_tell(&relation->loop->lines, "waiting %" PRIu64 " s: no answer to the %s of index %u in slot %u subslot %u", passed / SECOND, verb(access),
               access->index, access->slot, access->subslot);
}

void access_drop(struct relation *relation)
{
    const struct access *access = &relation->access;
    if (!access->is_waiting)
        return;
    relation->access.is_waiting = 0;
    lines_tell(&relation->loop->lines, "%s %u %u %u dropped: the relation has ended", verb(access), access->slot, access->subslot, access->index);
}
