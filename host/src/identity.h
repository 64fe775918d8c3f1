/* The identity of a device, from a file of lines `Key = value`. */
#ifndef HOST_IDENTITY_H
#define HOST_IDENTITY_H

#include "nandutable.h"

/* Reads an identity file into a station. A key that the file lacks leaves its field unchanged. If the station was made from a catalogue,
 * `catalogue` is its path, otherwise NULL: a key that the catalogue has too must have the same value. Returns whether the file has a MAC
 * address. On a fault, ends the program with a message that names the line and the key. */
int identity_read(pn_station *station, const char *path, const char *catalogue);

#endif
