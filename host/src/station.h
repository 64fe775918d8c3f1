/* The station of a device, and the places of its data. */
#ifndef HOST_STATION_H
#define HOST_STATION_H

#include "nandutable_controller.h"

#define STATION_PLACES (PN_MODULES * PN_SUBMODULES)
#define STATION_DATA 1440 /* octets of a place */

/* A submodule that has data of one direction, and the data. */
struct place {
    uint16_t slot;
    uint16_t subslot;
    uint16_t length;
    int is_given;
    int is_bad; /* by a line `status` of a controller */
    int is_changed; /* since the signals of the place were looked at */
    uint8_t octets[STATION_DATA];
};

struct places {
    unsigned count;
    struct place list[STATION_PLACES];
};

enum direction { OF_INPUT, OF_OUTPUT };

/* The demo station: two octets of input in slot 1, and two of output in slot 2. */
void station_demo(pn_station *station);

/* Reads a catalogue, and warns of keys that are not of a catalogue. If it gives no plan, ends the program with a message. */
void station_plan(pn_plan *plan, const char *path);

/* Warns of an interval at which cyclic frames are not accepted because their CycleCounter is not newer. */
void station_warn(const pn_plan *plan, const char *path);

/* The submodules that have data of a direction. */
void station_places(struct places *places, const pn_module *modules, uint32_t count, enum direction direction);

/* Copies data to a place. Returns whether they differ from its data; data of another length are not copied, and do not. */
int station_update(struct place *place, const uint8_t *octets, size_t length);

/* Writes a line for a place: the label, its slot, its subslot and its data in hex. */
#define STATION_LINE (2 * STATION_DATA + 64)
void station_line(char text[STATION_LINE], const char *label, const struct place *place);

/* The place of a submodule, or NULL. */
struct place *station_place(struct places *places, uint16_t slot, uint16_t subslot);

#endif
