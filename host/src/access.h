/* Reads and writes of records by the application while data is exchanged, one at a time: the lines `read` and `write`. And what a read without a
 * relation has in common with them. */
#ifndef HOST_ACCESS_H
#define HOST_ACCESS_H

#include "nandutable_controller.h"
#include <stddef.h>
#include <stdint.h>

struct relation;

/* The request that waits for its answer. */
struct access {
    int is_waiting;
    int is_write;
    int is_diagnosis; /* made by the line `diagnosis`, which compares the answer */
    uint16_t slot;
    uint16_t subslot;
    uint16_t index;
    uint64_t since; /* when it was made */
    uint64_t pause; /* how long it waits until the next line about it, in nanoseconds */
};

/* The answer to a request. */
struct access_answer {
    int is_refused;
    uint8_t status[4]; /* if it is: the PNIOStatus, or the status of a reject or a fault */
    const uint8_t *octets;
    size_t length;
};

/* The octets of a status. */
void access_spell(uint8_t status[4], uint32_t value);

/* Reads the words SLOT SUBSLOT INDEX; the index may also be `0x` and hex digits. Returns whether they are that. */
int access_place(char *words[], struct access *access);

/* What these words must be. */
#define ACCESS_PLACE "SLOT SUBSLOT INDEX, each from 0 to 65535; INDEX may be 0x and hex digits"

/* The longest record, in octets, and room for the text of an answer. */
#define ACCESS_RECORD 1308
#define ACCESS_TEXT (2 * ACCESS_RECORD + 512)

/* Writes an answer as text: `read SLOT SUBSLOT INDEX HEX`, or why the request was refused. */
void access_words(const struct access *access, const struct access_answer *answer, char *text, size_t size);

/* The line `read SLOT SUBSLOT INDEX`, with its words. */
void access_read(struct relation *relation, char *words[]);

/* The line `write SLOT SUBSLOT INDEX HEX`, with its words. */
void access_write(struct relation *relation, char *words[]);

/* Reads the diagnosis record with this index of the whole device, to compare it with what the alarms reported. */
void access_read_diagnosis(struct relation *relation, unsigned index);

/* Reports the answer if there is one. */
void access_look(struct relation *relation);

/* Reports now and then that there is no answer yet. */
void access_tell_waiting(struct relation *relation);

/* The relation has ended: reports that there will be no answer. */
void access_drop(struct relation *relation);

#endif
