/* Why a device refused or ended, as text, from its frames. Only used for messages. */
#ifndef HOST_REASONS_H
#define HOST_REASONS_H

#include "differences.h"
#include "nandutable_controller.h"

struct reasons {
    uint8_t status[4];   /* PNIOStatus of the last response or ERR that has one, or the status of a reject or a fault */
    uint32_t sequence;   /* of that response */
    uint32_t tries;      /* how many calls before its call were refused as busy, and tried again */
    struct differences differences; /* of the answer to the Connect */
    uint8_t block_error; /* of the last refused Set */
    int has_identity;    /* a station with the plan's name answered Identify, */
    uint8_t identity[4]; /* with this VendorID and DeviceID */
};

/* Reads a received frame. */
void reasons_hear(struct reasons *reasons, const pn_plan *plan, const uint8_t *octets, size_t length);

/* Whether a PNIOStatus says that the device is busy (PNIORW, resource busy): the controller then tries a Write of the start-up, or PrmEnd, again. */
int reasons_is_busy(const uint8_t status[4]);

/* The meaning of a BlockError of a Set. */
const char *reasons_block_error(uint8_t error);

/* The records of the Write with this number, from 1: the place of the first one in the plan, and how many there are; 0 if there is no such
 * Write. A Write carries one record, or a list of up to 10 (multiple_write). */
uint32_t reasons_written(const pn_plan *plan, uint32_t number, uint32_t *place);

/* Writes which record of the plan was written. */
void reasons_record(const pn_plan *plan, uint32_t place, char *text, size_t size);

/* Writes which call a sequence number is of, without tries: the Connect, a Write of records of the plan, PrmEnd, or another one. */
void reasons_call(const pn_plan *plan, uint32_t sequence, char *text, size_t size);

/* Writes a status with its meaning: a PNIOStatus, or the one of a call that was rejected. */
void reasons_status(const uint8_t status[4], char *text, size_t size);

/* The details of an end with this cause, after a colon, or an empty text. `refused` is the place of the record that the device refused and
 * `status` its PNIOStatus, if the end is the refusal of a record of a list; otherwise `status` is NULL. */
void reasons_words(const struct reasons *reasons, const pn_plan *plan, uint32_t cause, uint32_t refused, const uint8_t *status, char *text,
                   size_t size);

#endif
