/* The signals of a plan, as its catalogue names them. */
#ifndef HOST_SIGNAL_TABLE_H
#define HOST_SIGNAL_TABLE_H

#include "signal_types.h"
#include "station.h"

#define SIGNAL_NAME 64
#define SIGNAL_UNIT 80  /* octets */
#define SIGNAL_TEXT 320 /* octets */
#define SIGNALS_MOST 32768

/* A signal of a station. */
struct signal_entry {
    char name[SIGNAL_NAME + 1];
    enum direction direction;
    uint16_t slot;
    uint16_t subslot;
    uint16_t octet; /* within the data of the submodule */
    uint16_t length;
    int bit; /* 0 to 7; -1: the signal has whole octets */
    const struct signal_type *type;
    char unit[SIGNAL_UNIT + 1];
    char text[SIGNAL_TEXT + 1];
};

/* Reads the signals of the plan of this file, in their order. If they are not valid, ends the program with a message. Returns their number;
 * the caller frees the list. */
unsigned signal_table(const char *file, const pn_plan *plan, struct signal_entry **list);

#endif
