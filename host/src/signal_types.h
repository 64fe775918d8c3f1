/* The DataTypes of GSDML, and their values as text. */
#ifndef HOST_SIGNAL_TYPES_H
#define HOST_SIGNAL_TYPES_H

#include <stddef.h>
#include <stdint.h>

#define SIGNAL_OCTETS 1440 /* of the longest value */
/* A printed value and a 0: two letters for each octet, and quotes. */
#define SIGNAL_VALUE (2 * SIGNAL_OCTETS + 3)
#define SIGNAL_RANGE 128

/* How the octets of a type are read, the highest octet of a number first. */
enum signal_form {
    FORM_BOOLEAN,
    FORM_UNSIGNED,
    FORM_SIGNED,
    FORM_FLOAT,          /* IEEE 754, of four or eight octets */
    FORM_VISIBLE,        /* printable ASCII */
    FORM_UNICODE,        /* UTF-8 */
    FORM_FLOAT_STATUS,   /* a Float32 and an Unsigned8 */
    FORM_NUMBER_STATUS,  /* an Unsigned8 and an Unsigned8 */
    FORM_OCTETS_STATUS,  /* octets and an Unsigned8 */
    FORM_OCTETS
};

struct signal_type {
    const char *name;    /* as in GSDML */
    uint16_t length;     /* in octets; 0: it has no fixed length */
    enum signal_form form;
};

/* The type of a name, or NULL. */
const struct signal_type *signal_type(const char *name);

/* Writes a value of `length` octets. */
void signal_print(char text[SIGNAL_VALUE], const struct signal_type *type, const uint8_t *octets, size_t length);

/* Reads a value into `length` octets. Returns whether it is one of the type; if not, the octets are unchanged. */
int signal_parse(const char *text, const struct signal_type *type, uint8_t *octets, size_t length);

/* Reads the whole text as a decimal number, with or without a point and an exponent. Returns whether it is one that has a value. */
int signal_decimal(const char *text, double *number);

/* Writes which values the type takes. */
void signal_range(char text[SIGNAL_RANGE], const struct signal_type *type, size_t length);

/* Writes a text in quotes, as many letters as have room. `text` is UTF-8. */
void signal_quote(char *quoted, size_t room, const char *text);

/* The number that a deadband is compared with. Returns whether the type has one: `rest` is the number of octets at its end that belong to
 * no number. */
int signal_number(const struct signal_type *type, const uint8_t *octets, size_t length, double *number, size_t *rest);

#endif
