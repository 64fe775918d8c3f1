/* Records that the application answers: those of the station, what is asked of one, and the answers that come by lines. */
#ifndef HOST_RECORDS_H
#define HOST_RECORDS_H

#include "nandutable.h"

#define RECORDS_LINE (2 * PN_RECORD_SIZE + 64)
#define RECORDS_FORM "SLOT SUBSLOT INDEX LENGTH read|write|both"

/* Reads the five words SLOT SUBSLOT INDEX LENGTH read|write|both. Returns whether they are a record that the application may answer. */
int records_read(char *words[], pn_asked_record *record);

/* Puts a record into the station. Returns why it has no place, or NULL. */
const char *records_add(pn_station *station, const pn_asked_record *record);

/* Writes what is asked, as pn_asked returned it. */
void records_line(char text[RECORDS_LINE], const pn_op *op);

/* What a line answers. */
struct records_answer {
    uint32_t number;
    int has_octets; /* 0: a Write is done */
    size_t length;
    uint8_t octets[PN_RECORD_SIZE];
    uint8_t code1; /* of a refusal: ErrorCode1 and ErrorCode2 */
    uint8_t code2;
};

/* Reads the words after `answer`, which NULL ends: NUMBER, and HEX or - of a Read. Returns whether they are that. */
int records_read_answer(char *words[], struct records_answer *answer);

/* Reads the words after `refuse`: NUMBER ERRORCODE1 ERRORCODE2. Returns whether they are that. */
int records_read_refusal(char *words[], struct records_answer *answer);

#endif
