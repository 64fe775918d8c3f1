/* Numbers, octets and addresses as text. */
#ifndef HOST_WORDS_H
#define HOST_WORDS_H

#include <stddef.h>
#include <stdint.h>

/* Reads the whole argument as a decimal number of at most `most`. Returns whether it is one. */
int words_number(const char *word, unsigned long most, unsigned long *value);

/* Reads the index of a record: a decimal number of at most 65,535, or `0x` and hex digits. Returns whether it is one. */
int words_index(const char *word, unsigned long *value);

/* Reads the whole argument as octets in hex, at most `most` of them. Returns their number, or -1. */
long words_octets(const char *word, uint8_t *octets, size_t most);

/* Reads a MAC address, six octets in hex between colons or hyphens. Returns whether it is one. */
int words_mac(const char *word, uint8_t mac[6]);

/* Writes a MAC address, six octets in hex between colons. Returns the text. */
#define WORDS_MAC 18
const char *words_show_mac(char text[WORDS_MAC], const uint8_t mac[6]);

/* Copies octets that came from a network as text, as many as have room before a 0, with a dot for each that is not printable ASCII. Returns
 * the text. */
const char *words_show_text(char *shown, size_t room, const uint8_t *octets, size_t size);

/* Writes octets that came from a network as a string of JSON, with its quotes: printable ASCII as it is, and each other octet as \u00XX. `text`
 * has room for WORDS_JSON(size). */
#define WORDS_JSON(size) (6 * (size) + 3)
void words_json(char *text, const uint8_t *octets, size_t size);

/* Splits a line at its blanks, in place, into at most `most` parts. Returns their number, or -1 if there are more. */
int words_part(char *line, char *words[], int most);

/* A place and octets: the words SLOT SUBSLOT HEX, with at most `most` octets. */
struct words_place {
    uint16_t slot;
    uint16_t subslot;
    size_t length;
};

/* Reads such words, the octets apart. Returns whether they are a place and octets. */
int words_read_place(char *words[], struct words_place *place, uint8_t *octets, size_t most);

/* Reads the words SLOT SUBSLOT good|bad. Returns whether they are that. */
int words_read_status(char *words[], uint16_t *slot, uint16_t *subslot, int *is_good);

/* Reads numbers of 16 bits. Returns whether each word is one. */
int words_numbers(char *words[], uint16_t *numbers, unsigned count);

/* Writes octets in hex, followed by a 0; `text` has room for 2 * length + 1. */
void words_hex(char *text, const uint8_t *octets, size_t length);

/* Writes a label, a blank, and octets in hex. If there is no room for all of them, only the label and the blank. */
void words_labelled(char *text, size_t size, const char *label, const uint8_t *octets, size_t length);

#endif
