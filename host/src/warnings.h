/* Warnings about a plan that is valid, but rarely meant. */
#ifndef HOST_WARNINGS_H
#define HOST_WARNINGS_H

#include "lines.h"
#include "nandutable_controller.h"

/* Writes a line for each: a data hold time below 10 ms, the same name or the same address at both ends, a gateway outside the subnet of the
 * station. */
void warnings_of_plan(const pn_plan *plan, struct lines *lines);

#endif
