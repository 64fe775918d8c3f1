#include "records.h"
#include "words.h"
#include <stdio.h>
#include <string.h>

#define INDEX_MOST 32767u
#define NUMBER_MOST 0xFFFFFFFFu

/* Reads what may be done with a record. */
static int read_access(const char *word, pn_asked_record *record)
{
    int is_both = strcmp(word, "both") == 0;
    record->is_readable = is_both || strcmp(word, "read") == 0;
    record->is_writable = is_both || strcmp(word, "write") == 0;
    return record->is_readable || record->is_writable;
}

int records_read(char *words[], pn_asked_record *record)
{
    uint16_t place[2];
    unsigned long index, length;
    if (!words_numbers(words, place, 2) || !words_index(words[2], &index) || index > INDEX_MOST)
        return 0;
    if (!words_number(words[3], PN_RECORD_SIZE, &length) || length == 0)
        return 0;
    *record = (pn_asked_record){.slot = place[0], .subslot = place[1], .index = (uint16_t)index, .greatest_length = (uint16_t)length};
    return read_access(words[4], record);
}

const char *records_add(pn_station *station, const pn_asked_record *record)
{
    for (uint32_t i = 0; i < station->record_count; i++) {
        const pn_asked_record *other = &station->records[i];
        if (other->slot == record->slot && other->subslot == record->subslot && other->index == record->index)
            return "a record is there twice";
    }
    if (station->record_count == PN_ASKED_RECORDS)
        return "there are more than 16 records";
    station->records[station->record_count++] = *record;
    return NULL;
}

void records_line(char text[RECORDS_LINE], const pn_op *op)
{
    int head = snprintf(text, RECORDS_LINE, "asked %u %u %u %u ", (unsigned)op->number, (unsigned)op->slot, (unsigned)op->subslot, (unsigned)op->index);
    char *rest = text + head;
    size_t room = RECORDS_LINE - (size_t)head;
    if (op->wanted == PN_WANTS_READ) /* a call may name more than any response carries */
        snprintf(rest, room, "read %u", (unsigned)(op->read_length < PN_RECORD_SIZE ? op->read_length : PN_RECORD_SIZE));
    else if (op->length == 0)
        snprintf(rest, room, "write -");
    else
        words_labelled(rest, room, "write", op->octets, op->length);
}

static int read_number(const char *word, uint32_t *number)
{
    unsigned long value;
    if (word == NULL || !words_number(word, NUMBER_MOST, &value))
        return 0;
    *number = (uint32_t)value;
    return 1;
}

int records_read_answer(char *words[], struct records_answer *answer)
{
    long length;
    memset(answer, 0, sizeof *answer);
    if (!read_number(words[0], &answer->number))
        return 0;
    answer->has_octets = words[1] != NULL;
    if (!answer->has_octets || strcmp(words[1], "-") == 0)
        return 1;
    length = words_octets(words[1], answer->octets, sizeof answer->octets);
    answer->length = length < 0 ? 0 : (size_t)length;
    return length >= 0;
}

static int read_octet(const char *word, uint8_t *octet)
{
    unsigned long value;
    if (!words_number(word, 255, &value))
        return 0;
    *octet = (uint8_t)value;
    return 1;
}

int records_read_refusal(char *words[], struct records_answer *answer)
{
    memset(answer, 0, sizeof *answer);
    return read_number(words[0], &answer->number) && read_octet(words[1], &answer->code1) && read_octet(words[2], &answer->code2);
}
