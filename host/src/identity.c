#include "identity.h"
#include "near.h"
#include "say.h"
#include "words.h"
#include <errno.h>
#include <stdio.h>
#include <stdlib.h>

/* An identity file has some hundred octets; a longer file is refused. */
#define IDENTITY_MOST 16384u

static const char blanks[] = " \t\r";

/* A key, the place of its field in a station, and how its value is read. `take` returns whether the value is one of this key. */
struct key {
    const char *name;
    const char *takes;
    size_t place;
    size_t most; /* the length of a text, or the greatest number */
    int is_of_catalogue;
    int (*take)(const struct key *key, const char *value, pn_station *station);
};

static uint8_t *field(const struct key *key, pn_station *station)
{
    return (uint8_t *)station + key->place;
}

/* Whether all characters are printable ASCII. */
static int is_printable(const char *text)
{
    for (; *text != '\0'; text++)
        if (*text < 0x20 || *text > 0x7E)
            return 0;
    return 1;
}

static int is_text(const char *value, size_t most)
{
    return *value != '\0' && strlen(value) <= most && is_printable(value);
}

/* A VisibleString: it is padded with spaces. */
static int take_text(const struct key *key, const char *value, pn_station *station)
{
    if (!is_text(value, key->most))
        return 0;
    memset(field(key, station), ' ', key->most);
    memcpy(field(key, station), value, strlen(value));
    return 1;
}

static int take_station_type(const struct key *key, const char *value, pn_station *station)
{
    if (!is_text(value, key->most))
        return 0;
    memset(station->station_type, 0, sizeof station->station_type);
    memcpy(station->station_type, value, strlen(value));
    station->station_type_length = (uint16_t)strlen(value);
    return 1;
}

/* A decimal number, or 0x and hex digits as in GSDML. */
static int read_number(const char *value, unsigned long most, unsigned long *number)
{
    const char *digits = value + 2;
    if (strncmp(value, "0x", 2) != 0)
        return words_number(value, most, number);
    if (*digits == '\0' || strlen(digits) > 8 || digits[strspn(digits, "0123456789abcdefABCDEF")] != '\0')
        return 0;
    *number = strtoul(digits, NULL, 16);
    return *number <= most;
}

static int take_number(const struct key *key, const char *value, pn_station *station)
{
    unsigned long number;
    uint16_t octets;
    if (!read_number(value, key->most, &number))
        return 0;
    octets = (uint16_t)number;
    memcpy(field(key, station), &octets, sizeof octets);
    return 1;
}

/* SWRevisionPrefix, and three numbers between dots. */
static int take_revision(const struct key *key, const char *value, pn_station *station)
{
    char text[16], *number = text;
    uint8_t octets[4];
    if (*value == '\0' || strchr("VRPUT", *value) == NULL || strlen(value) > sizeof text)
        return 0;
    octets[0] = (uint8_t)*value;
    strcpy(text, value + 1);
    for (int i = 1; i <= 3; i++) {
        char *dot = strchr(number, '.');
        unsigned long part;
        if ((dot == NULL) != (i == 3))
            return 0;
        if (dot != NULL)
            *dot = '\0';
        if (!words_number(number, key->most, &part))
            return 0;
        octets[i] = (uint8_t)part;
        number = dot == NULL ? number : dot + 1;
    }
    memcpy(field(key, station), octets, sizeof octets);
    return 1;
}

/* The address of one station: its first octet is even. */
static int take_mac(const struct key *key, const char *value, pn_station *station)
{
    uint8_t mac[6];
    if (!words_mac(value, mac) || mac[0] % 2 != 0)
        return 0;
    memcpy(field(key, station), mac, sizeof mac);
    return 1;
}

static const char of_number[] = "0 to 65535, decimal or 0x and hex digits";

static const struct key keys[] = {
    {"OrderID", "1 to 20 printable ASCII characters", offsetof(pn_station, order_id), 20, 0, take_text},
    {"SerialNumber", "1 to 16 printable ASCII characters", offsetof(pn_station, serial_number), 16, 0, take_text},
    {"HardwareRevision", of_number, offsetof(pn_station, hardware_revision), 65535, 0, take_number},
    {"SoftwareRevision", "V, R, P, U or T and three numbers from 0 to 255 between dots, as V1.2.3", offsetof(pn_station, software_revision), 255, 0,
     take_revision},
    {"ProfileID", of_number, offsetof(pn_station, profile_id), 65535, 0, take_number},
    {"ProfileSpecificType", of_number, offsetof(pn_station, profile_specific_type), 65535, 0, take_number},
    {"VendorID", of_number, offsetof(pn_station, vendor_id), 65535, 1, take_number},
    {"DeviceID", of_number, offsetof(pn_station, device_id), 65535, 1, take_number},
    {"StationType", "1 to 25 printable ASCII characters", offsetof(pn_station, station_type), 25, 1, take_station_type},
    {"MAC", "six octets in hex between colons, the first one even", offsetof(pn_station, mac), 6, 0, take_mac},
};

#define KEYS (sizeof keys / sizeof keys[0])
#define NO_LINE 0u

/* A file that is read: its path, the number of the line, and the lines on which its keys were found. */
struct reading {
    const char *path;
    const char *catalogue;
    unsigned line;
    unsigned found[KEYS];
};

static const struct key *key_of(const char *name)
{
    for (size_t i = 0; i < KEYS; i++)
        if (strcmp(keys[i].name, name) == 0)
            return &keys[i];
    return NULL;
}

/* Whether both stations have the same identity in what a catalogue has of it. */
static int is_same(const pn_station *one, const pn_station *other)
{
    return one->vendor_id == other->vendor_id && one->device_id == other->device_id && one->station_type_length == other->station_type_length &&
           memcmp(one->station_type, other->station_type, sizeof one->station_type) == 0;
}

static void take_value(struct reading *reading, const struct key *key, const char *value, pn_station *station)
{
    /* A message has no characters that a terminal could take for a command. */
    const char *quote = is_printable(value) ? "'" : "", *shown = is_printable(value) ? value : "other characters";
    unsigned *found = &reading->found[key - keys];
    pn_station before = *station;
    if (*found != NO_LINE)
        fail(STATUS_DATA, "'%s' line %u: %s is on line %u too", reading->path, reading->line, key->name, *found);
    *found = reading->line;
    if (!key->take(key, value, station))
        fail(STATUS_DATA, "'%s' line %u: %s takes %s, not %s%s%s", reading->path, reading->line, key->name, key->takes, quote, shown, quote);
    if (reading->catalogue != NULL && key->is_of_catalogue && !is_same(&before, station))
        fail(STATUS_DATA, "'%s' line %u: %s has another value in the catalogue '%s'", reading->path, reading->line, key->name, reading->catalogue);
}

/* Removes the blanks at both ends, in place. */
static char *trimmed(char *text)
{
    size_t length;
    text += strspn(text, blanks);
    for (length = strlen(text); length != 0 && strchr(blanks, text[length - 1]) != NULL; length--)
        text[length - 1] = '\0';
    return text;
}

/* Ends the program because of a key that there is not, and names the nearest one. */
static _Noreturn void refuse_key(const struct reading *reading, const char *name)
{
    struct near near = {.word = name};
    for (size_t i = 0; i < KEYS; i++)
        near_try(&near, keys[i].name);
    fail(STATUS_DATA, "'%s' line %u: there is no key '%s'%s%s%s (%s(8) lists the keys)", reading->path, reading->line, is_printable(name) ? name : "?",
         near.found == NULL ? "" : "; did you mean ", near.found == NULL ? "" : near.found, near.found == NULL ? "" : "?", say_name());
}

static void take_line(struct reading *reading, char *line, pn_station *station)
{
    char *equals, *name;
    const struct key *key;
    line = trimmed(line);
    if (*line == '\0' || *line == '#')
        return;
    equals = strchr(line, '=');
    if (equals == NULL)
        fail(STATUS_DATA, "'%s' line %u: neither a comment, which begins with '#', nor a line 'Key = value'", reading->path, reading->line);
    *equals = '\0';
    name = trimmed(line);
    key = key_of(name);
    if (key == NULL)
        refuse_key(reading, name);
    take_value(reading, key, trimmed(equals + 1), station);
}

/* The whole file, followed by a zero. */
static void read_text(char text[IDENTITY_MOST + 2], const char *path)
{
    FILE *file = fopen(path, "rb");
    size_t length;
    if (file == NULL)
        fail(STATUS_NO_INPUT, "the identity file '%s' cannot be opened: %s", path, strerror(errno));
    length = fread(text, 1, IDENTITY_MOST + 1, file);
    if (ferror(file))
        fail(STATUS_INPUT, "the identity file '%s' cannot be read: %s", path, strerror(errno));
    fclose(file);
    if (length > IDENTITY_MOST)
        fail(STATUS_DATA, "'%s' is not an identity file: it has more than %u octets", path, IDENTITY_MOST);
    if (memchr(text, 0, length) != NULL)
        fail(STATUS_DATA, "'%s' is not an identity file: it has an octet 0", path);
    text[length] = '\0';
}

int identity_read(pn_station *station, const char *path, const char *catalogue)
{
    static char text[IDENTITY_MOST + 2];
    struct reading reading = {.path = path, .catalogue = catalogue};
    char *line = text;
    read_text(text, path);
    while (line != NULL) {
        char *end = strchr(line, '\n');
        if (end != NULL)
            *end++ = '\0';
        reading.line++;
        take_line(&reading, line, station);
        line = end;
    }
    return reading.found[key_of("MAC") - keys] != NO_LINE;
}
