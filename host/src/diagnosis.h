/* The diagnoses of a device: as its alarms reported them, and as a record of it lists them. The line `diagnosis`. */
#ifndef HOST_DIAGNOSIS_H
#define HOST_DIAGNOSIS_H

#include "nandutable_controller.h"
#include "texts.h"

struct relation;
struct access_answer;

/* One diagnosis. */
struct diagnosis {
    uint16_t slot;
    uint16_t subslot;
    uint16_t channel; /* ChannelNumber; 0x8000: the submodule itself */
    uint16_t error;   /* ChannelErrorType */
};

struct diagnoses {
    unsigned count;
    unsigned others; /* those that no alarm of this form reports: other structures, or more than the list has room for */
    struct diagnosis list[PN_DIAGNOSES];
};

/* Reads the blocks of DiagnosisData (IEC 61158-6-10, 5.2.6.1) of a record. Returns whether they are whole; if not, the list has those before. */
int diagnosis_read(struct diagnoses *diagnoses, const uint8_t *octets, size_t length);

/* `SLOT SUBSLOT CHANNEL ERROR (TEXT)` of a diagnosis. Returns the text. */
#define DIAGNOSIS_WORDS (96 + TEXTS_LONGEST)
const char *diagnosis_words(const struct texts *texts, const struct diagnosis *one, char text[DIAGNOSIS_WORDS]);

/* Whether the list has this diagnosis. */
int diagnosis_has(const struct diagnoses *diagnoses, const struct diagnosis *wanted);

/* The line `diagnosis reported|relation|device`, with its words: lists what the alarms reported, and reads the record of the relation's
 * submodules (0xE00C) or of the whole device (0xF80C), to compare it. */
void diagnosis_take(struct relation *relation, char *words[]);

/* Compares what the alarms reported with the record that was read. */
void diagnosis_compare(struct relation *relation, const struct access_answer *answer);

#endif
