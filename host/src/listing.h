/* --list: the stations that answer Identify, and where their cables lead. An Identify finds them; then the record of its ports is read from each
 * station that has an address. */
#ifndef HOST_LISTING_H
#define HOST_LISTING_H

#include "caller.h"

/* Prints a line for each station that answers, or a list of JSON with an object for each. Returns their number. */
unsigned listing_print(const struct caller *caller, struct wire *wire, int is_json);

#endif
