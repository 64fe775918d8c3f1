/* --replace: the station that answers to a name by its place, which is the port of its neighbour, a dot and the name of its neighbour. By
 * DCP; the library writes and reads the frames, and judges who gets the name. */
#ifndef HOST_PLACE_H
#define HOST_PLACE_H

#include "nandutable_controller.h"
#include "wire.h"

/* The longest such name, in octets. */
#define PLACE_LONGEST 511

/* Asks for a second which stations answer to this name by the place. This request and the Set have the next numbers of the tool. */
void place_find(struct wire *wire, pn_tool *tool, const char *place, pn_search *search);

/* Why the station does not get this name, or PN_OK. */
uint32_t place_judge(const pn_tool *tool, const pn_search *search, const uint8_t *name, size_t length);

/* Gives it the name. Returns 0, the BlockError of its refusal, or -1 without an answer. */
int place_name(struct wire *wire, pn_tool *tool, const pn_search *search, const uint8_t *name, size_t length);

#endif
