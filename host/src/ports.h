/* What a record of a station says of its ports and of their neighbours: PDRealData (0xF841) or PDPortDataReal (0x802A), IEC 61158-6-10,
 * 5.2.28. */
#ifndef HOST_PORTS_H
#define HOST_PORTS_H

#include <stddef.h>
#include <stdint.h>

/* Writes words for each port and each of its neighbours: `  port 'port-001' to 'port-002' of 'switch-1'`, or `to nobody`. Returns whether the
 * blocks of the record are whole; if not, the words are those of what is before the fault. Words that find no room are left out. */
int ports_words(const uint8_t *octets, size_t length, char *words, size_t size);

/* The same as objects of JSON with commas between them: {"port": .., "neighbour_port": .., "neighbour": ..}, null for none. */
int ports_json(const uint8_t *octets, size_t length, char *words, size_t size);

#endif
