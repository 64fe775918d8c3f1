/* Modules of a device that are pulled and plugged by lines. The station is kept as it is plugged, so that a device that starts again finds it. */
#ifndef HOST_MODULES_H
#define HOST_MODULES_H

#include "nandutable.h"

/* What a line `plug` plugs. */
struct modules_plug {
    uint16_t slot;
    uint32_t module; /* its ident number */
    pn_submodule submodule;
};

/* Reads the words after `plug`, which NULL ends: SLOT SUBSLOT MODULE SUBMODULE INPUT OUTPUT, and up to two times INDEX LENGTH. Returns whether
 * they are numbers in their ranges. */
int modules_read_plug(char *words[], struct modules_plug *plug);

/* The device accepted a pull: takes the submodule, or the module, out of the station. */
void modules_pull(pn_station *station, uint16_t slot, uint16_t subslot);
void modules_pull_module(pn_station *station, uint16_t slot);

/* The device accepted a plug: puts the submodule into the station. */
void modules_plug(pn_station *station, const struct modules_plug *plug);

#endif
