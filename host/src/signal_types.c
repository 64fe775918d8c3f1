#include "signal_types.h"
#include "words.h"
#include <ctype.h>
#include <errno.h>
#include <inttypes.h>
#include <math.h>
#include <stdio.h>
#include <stdlib.h>
#include <string.h>

/* The lengths are those of docs/PLANS.md, Signals. */
static const struct signal_type types[] = {
    {"Boolean", 1, FORM_BOOLEAN},
    {"Integer8", 1, FORM_SIGNED},
    {"Integer16", 2, FORM_SIGNED},
    {"Integer32", 4, FORM_SIGNED},
    {"Integer64", 8, FORM_SIGNED},
    {"Unsigned8", 1, FORM_UNSIGNED},
    {"Unsigned16", 2, FORM_UNSIGNED},
    {"Unsigned32", 4, FORM_UNSIGNED},
    {"Unsigned64", 8, FORM_UNSIGNED},
    {"Float32", 4, FORM_FLOAT},
    {"Float64", 8, FORM_FLOAT},
    {"Date", 7, FORM_OCTETS},
    {"TimeOfDay with date indication", 6, FORM_OCTETS},
    {"TimeOfDay without date indication", 4, FORM_OCTETS},
    {"TimeDifference with date indication", 6, FORM_OCTETS},
    {"TimeDifference without date indication", 4, FORM_OCTETS},
    {"NetworkTime", 8, FORM_OCTETS},
    {"NetworkTimeDifference", 8, FORM_OCTETS},
    {"TimeStamp", 12, FORM_OCTETS},
    {"TimeStampDifference", 12, FORM_OCTETS},
    {"TimeStampDifferenceShort", 8, FORM_OCTETS},
    {"Unsigned8+Unsigned8", 2, FORM_NUMBER_STATUS},
    {"Float32+Unsigned8", 5, FORM_FLOAT_STATUS},
    {"Float32+Status8", 5, FORM_FLOAT_STATUS},
    {"OctetString2+Unsigned8", 3, FORM_OCTETS_STATUS},
    {"Unsigned8_S", 1, FORM_OCTETS},
    {"Unsigned16_S", 2, FORM_OCTETS},
    {"Integer16_S", 2, FORM_OCTETS},
    {"F_MessageTrailer4Byte", 4, FORM_OCTETS},
    {"F_MessageTrailer5Byte", 5, FORM_OCTETS},
    {"N2", 2, FORM_SIGNED},
    {"N4", 4, FORM_SIGNED},
    {"V2", 2, FORM_OCTETS},
    {"L2", 2, FORM_OCTETS},
    {"R2", 2, FORM_UNSIGNED},
    {"T2", 2, FORM_UNSIGNED},
    {"T4", 4, FORM_UNSIGNED},
    {"D2", 2, FORM_UNSIGNED},
    {"E2", 2, FORM_SIGNED},
    {"C4", 4, FORM_SIGNED},
    {"X2", 2, FORM_SIGNED},
    {"X4", 4, FORM_SIGNED},
    {"Unipolar2.16", 2, FORM_UNSIGNED},
    {"OctetString", 0, FORM_OCTETS},
    {"VisibleString", 0, FORM_VISIBLE},
    {"UnicodeString8", 0, FORM_UNICODE},
    {"61131_STRING", 0, FORM_OCTETS},
    {"61131_WSTRING", 0, FORM_OCTETS},
    {"OctetString_S", 0, FORM_OCTETS},
};

const struct signal_type *signal_type(const char *name)
{
    for (size_t i = 0; i < sizeof types / sizeof types[0]; i++)
        if (strcmp(types[i].name, name) == 0)
            return &types[i];
    return NULL;
}

/* --- Numbers --- */

static uint64_t unsigned_of(const uint8_t *octets, size_t length)
{
    uint64_t value = 0;
    for (size_t i = 0; i < length; i++)
        value = value << 8 | octets[i];
    return value;
}

static void put_unsigned(uint8_t *octets, size_t length, uint64_t value)
{
    for (size_t i = length; i-- > 0; value >>= 8)
        octets[i] = (uint8_t)value;
}

/* The greatest number of that many octets without a sign. */
static uint64_t most_of(size_t length)
{
    return length == 8 ? UINT64_MAX : (UINT64_C(1) << 8 * length) - 1;
}

static int64_t signed_of(const uint8_t *octets, size_t length)
{
    uint64_t value = unsigned_of(octets, length), sign = UINT64_C(1) << (8 * length - 1);
    /* The magnitude first: a conversion of a number above INT64_MAX is not defined by the language. */
    return (value & sign) != 0 ? -(int64_t)(most_of(length) - value) - 1 : (int64_t)value;
}

static float single_of(const uint8_t *octets)
{
    uint32_t bits = (uint32_t)unsigned_of(octets, 4);
    float value;
    memcpy(&value, &bits, sizeof value);
    return value;
}

static double double_of(const uint8_t *octets)
{
    uint64_t bits = unsigned_of(octets, 8);
    double value;
    memcpy(&value, &bits, sizeof value);
    return value;
}

/* Whether a text of digits is read as this value of the type. */
static int is_exact(const char *digits, double value, int is_single)
{
    return is_single ? strtof(digits, NULL) == (float)value : strtod(digits, NULL) == value;
}

/* Writes digits with a point in them: `exponent` is that of the first one, from -4 to 15. */
static void put_positional(char *text, const char *digits, int exponent)
{
    int count = (int)strlen(digits);
    if (exponent < 0)
        sprintf(text, "0.%.*s%s", -exponent - 1, "000", digits);
    else if (exponent >= count - 1)
        sprintf(text, "%s%.*s", digits, exponent - count + 1, "000000000000000");
    else
        sprintf(text, "%.*s.%s", exponent + 1, digits, digits + exponent + 1);
}

/* Writes the shortest decimal number that is read back as this value. */
static void print_float(char text[64], double value, int is_single)
{
    char scientific[64], digits[32] = "";
    int count = 1, exponent, has_sign = signbit(value) != 0;
    size_t filled = 0;
    if (isnan(value) || isinf(value)) {
        strcpy(text, isnan(value) ? "nan" : has_sign ? "-inf" : "inf");
        return;
    }
    do
        snprintf(scientific, sizeof scientific, "%.*e", count - 1, fabs(value));
    while (!is_exact(scientific, fabs(value), is_single) && count++ < 17);
    for (const char *letter = scientific; *letter != 'e'; letter++)
        if (isdigit((unsigned char)*letter))
            digits[filled++] = *letter;
    exponent = (int)strtol(strchr(scientific, 'e') + 1, NULL, 10);
    if (has_sign)
        *text++ = '-';
    if (exponent >= -4 && exponent < 16)
        put_positional(text, digits, exponent);
    else
        sprintf(text, "%c%s%se%c%02d", digits[0], filled > 1 ? "." : "", digits + 1, exponent < 0 ? '-' : '+', abs(exponent));
}

static int parse_unsigned(const char *text, uint64_t most, uint64_t *value)
{
    int base = text[0] == '0' && text[1] == 'x' ? 16 : 10;
    char *end;
    text += base == 16 ? 2 : 0;
    if (!isxdigit((unsigned char)*text) || (base == 10 && !isdigit((unsigned char)*text)))
        return 0;
    errno = 0;
    *value = strtoull(text, &end, base);
    return *end == '\0' && errno == 0 && *value <= most;
}

static int parse_signed(const char *text, size_t length, uint64_t *value)
{
    int is_negative = text[0] == '-';
    uint64_t most = most_of(length) / 2 + (uint64_t)is_negative, number;
    if (text[0] == '-' || text[0] == '+')
        text++;
    if (!isdigit((unsigned char)text[0]) || text[1] == 'x' || !parse_unsigned(text, most, &number))
        return 0;
    *value = is_negative ? 0 - number : number;
    return 1;
}

/* Whether a text is a decimal number with or without a point and an exponent. */
static int is_decimal(const char *text)
{
    size_t before, after = 0;
    text += *text == '-' || *text == '+';
    text += before = strspn(text, "0123456789");
    if (*text == '.')
        text += 1 + (after = strspn(text + 1, "0123456789"));
    if (before + after == 0)
        return 0;
    if (*text == 'e' || *text == 'E') {
        text += 1 + (text[1] == '-' || text[1] == '+');
        if (!isdigit((unsigned char)*text))
            return 0;
        text += strspn(text, "0123456789");
    }
    return *text == '\0';
}

int signal_decimal(const char *text, double *number)
{
    if (!is_decimal(text))
        return 0;
    *number = strtod(text, NULL);
    return !isinf(*number);
}

static int parse_float(const char *text, uint8_t *octets, size_t length)
{
    int is_word = strcmp(text, "nan") == 0 || strcmp(text, "inf") == 0 || strcmp(text, "-inf") == 0;
    uint64_t bits;
    if (!is_word && !is_decimal(text))
        return 0;
    if (length == 4) {
        float value = strtof(text, NULL);
        uint32_t word;
        if (isinf(value) && !is_word)
            return 0;
        memcpy(&word, &value, sizeof word);
        bits = word;
    } else {
        double value = strtod(text, NULL);
        if (isinf(value) && !is_word)
            return 0;
        memcpy(&bits, &value, sizeof bits);
    }
    put_unsigned(octets, length, bits);
    return 1;
}

/* --- Strings --- */

/* The number of octets of the letter of UTF-8 at the front of a text, or 0: it is not a letter, or it is a control character. */
static size_t letter_at(const uint8_t *octets, size_t length)
{
    static const uint32_t least[] = {0, 0, 0x80, 0x800, 0x10000};
    size_t size = octets[0] < 0x80 ? 1 : octets[0] >> 5 == 6 ? 2 : octets[0] >> 4 == 14 ? 3 : octets[0] >> 3 == 30 ? 4 : 0;
    uint32_t code;
    if (size == 0 || size > length)
        return 0;
    code = size == 1 ? octets[0] : octets[0] & (0x7Fu >> size);
    for (size_t i = 1; i < size; i++) {
        if (octets[i] >> 6 != 2)
            return 0;
        code = code << 6 | (octets[i] & 0x3F);
    }
    if (code < least[size] || code > 0x10FFFF || (code >= 0xD800 && code <= 0xDFFF))
        return 0;
    return code < 0x20 || (code >= 0x7F && code <= 0x9F) ? 0 : size;
}

/* Whether octets are a string of a type. */
static int is_string(enum signal_form form, const uint8_t *octets, size_t length)
{
    for (size_t i = 0, size; i < length; i += size) {
        size = form == FORM_VISIBLE ? octets[i] >= ' ' && octets[i] <= '~' : letter_at(octets + i, length - i);
        if (size == 0)
            return 0;
    }
    return 1;
}

static void quote(char *quoted, const uint8_t *octets, size_t length)
{
    *quoted++ = '"';
    for (size_t i = 0; i < length; i++) {
        if (octets[i] == '"' || octets[i] == '\\')
            *quoted++ = '\\';
        *quoted++ = (char)octets[i];
    }
    strcpy(quoted, "\"");
}

void signal_quote(char *quoted, size_t room, const char *text)
{
    const uint8_t *octets = (const uint8_t *)text;
    size_t length = strlen(text), taken = 0, size;
    for (size_t needs = 3; taken < length; taken += size) {
        size = letter_at(octets + taken, length - taken);
        size = size == 0 ? 1 : size;
        needs += size + (octets[taken] == '"' || octets[taken] == '\\');
        if (needs > room)
            break;
    }
    quote(quoted, octets, taken);
}

static void print_string(char text[SIGNAL_VALUE], enum signal_form form, const uint8_t *octets, size_t length)
{
    size_t filled = length;
    while (filled != 0 && octets[filled - 1] == 0)
        filled--;
    if (is_string(form, octets, filled))
        quote(text, octets, filled);
    else
        words_hex(text, octets, length);
}

static int parse_octets(const char *text, uint8_t *octets, size_t length)
{
    uint8_t read[SIGNAL_OCTETS];
    if (words_octets(text, read, sizeof read) != (long)length)
        return 0;
    memcpy(octets, read, length);
    return 1;
}

static int parse_string(const char *text, enum signal_form form, uint8_t *octets, size_t length)
{
    uint8_t read[SIGNAL_OCTETS] = {0};
    size_t filled = 0;
    if (*text != '"')
        return parse_octets(text, octets, length);
    for (text++; *text != '"'; text++) {
        if (*text == '\\' && *++text != '"' && *text != '\\')
            return 0;
        if (*text == '\0' || filled == length)
            return 0;
        read[filled++] = (uint8_t)*text;
    }
    if (text[1] != '\0' || !is_string(form, read, filled))
        return 0;
    memcpy(octets, read, length);
    return 1;
}

/* --- Values --- */

/* Writes a status after the value in front of it. */
static void print_status(char *text, uint8_t status)
{
    sprintf(text + strlen(text), "+%u", status);
}

void signal_print(char text[SIGNAL_VALUE], const struct signal_type *type, const uint8_t *octets, size_t length)
{
    switch (type->form) {
    case FORM_BOOLEAN: strcpy(text, octets[0] != 0 ? "true" : "false"); return;
    case FORM_UNSIGNED: sprintf(text, "%" PRIu64, unsigned_of(octets, length)); return;
    case FORM_SIGNED: sprintf(text, "%" PRId64, signed_of(octets, length)); return;
    case FORM_FLOAT: print_float(text, length == 4 ? (double)single_of(octets) : double_of(octets), length == 4); return;
    case FORM_VISIBLE:
    case FORM_UNICODE: print_string(text, type->form, octets, length); return;
    case FORM_FLOAT_STATUS:
        print_float(text, (double)single_of(octets), 1);
        print_status(text, octets[4]);
        return;
    case FORM_NUMBER_STATUS: sprintf(text, "%u+%u", octets[0], octets[1]); return;
    case FORM_OCTETS_STATUS:
        words_hex(text, octets, length - 1);
        print_status(text, octets[length - 1]);
        return;
    case FORM_OCTETS: words_hex(text, octets, length); return;
    }
}

static int parse_boolean(const char *text, uint8_t *octets)
{
    int is_true = strcmp(text, "true") == 0 || strcmp(text, "1") == 0;
    if (!is_true && strcmp(text, "false") != 0 && strcmp(text, "0") != 0)
        return 0;
    octets[0] = (uint8_t)is_true;
    return 1;
}

/* A value, `+`, and its status. */
static int parse_with_status(const char *text, enum signal_form form, uint8_t *octets, size_t length)
{
    const char *plus = strrchr(text, '+');
    uint8_t read[8];
    char value[64];
    uint64_t status, number;
    int is_value;
    if (plus == NULL || (size_t)(plus - text) >= sizeof value || !parse_unsigned(plus + 1, 255, &status))
        return 0;
    memcpy(value, text, (size_t)(plus - text));
    value[plus - text] = '\0';
    if (form == FORM_FLOAT_STATUS)
        is_value = parse_float(value, read, 4);
    else if (form == FORM_OCTETS_STATUS)
        is_value = parse_octets(value, read, length - 1);
    else if ((is_value = parse_unsigned(value, 255, &number)) != 0)
        read[0] = (uint8_t)number;
    if (!is_value)
        return 0;
    memcpy(octets, read, length - 1);
    octets[length - 1] = (uint8_t)status;
    return 1;
}

int signal_parse(const char *text, const struct signal_type *type, uint8_t *octets, size_t length)
{
    uint64_t value;
    switch (type->form) {
    case FORM_BOOLEAN: return parse_boolean(text, octets);
    case FORM_UNSIGNED:
    case FORM_SIGNED:
        if (!(type->form == FORM_UNSIGNED ? parse_unsigned(text, most_of(length), &value) : parse_signed(text, length, &value)))
            return 0;
        put_unsigned(octets, length, value);
        return 1;
    case FORM_FLOAT: return parse_float(text, octets, length);
    case FORM_VISIBLE:
    case FORM_UNICODE: return parse_string(text, type->form, octets, length);
    case FORM_FLOAT_STATUS:
    case FORM_NUMBER_STATUS:
    case FORM_OCTETS_STATUS: return parse_with_status(text, type->form, octets, length);
    case FORM_OCTETS: return parse_octets(text, octets, length);
    }
    return 0;
}

void signal_range(char text[SIGNAL_RANGE], const struct signal_type *type, size_t length)
{
    int64_t most = (int64_t)(most_of(length > 8 ? 8 : length) / 2);
    switch (type->form) {
    case FORM_BOOLEAN: sprintf(text, "%s takes true or false", type->name); return;
    case FORM_UNSIGNED: sprintf(text, "%s takes 0 to %" PRIu64, type->name, most_of(length)); return;
    case FORM_SIGNED: sprintf(text, "%s takes %" PRId64 " to %" PRId64, type->name, -most - 1, most); return;
    case FORM_FLOAT:
        sprintf(text, "%s takes %s, nan, inf or -inf", type->name,
                length == 4 ? "-3.4028235e+38 to 3.4028235e+38" : "-1.7976931348623157e+308 to 1.7976931348623157e+308");
        return;
    case FORM_VISIBLE: sprintf(text, "%s takes at most %zu printable letters of ASCII in quotes, or %zu hex digits", type->name, length, 2 * length); return;
    case FORM_UNICODE: sprintf(text, "%s takes at most %zu octets of UTF-8 in quotes, or %zu hex digits", type->name, length, 2 * length); return;
    case FORM_FLOAT_STATUS: sprintf(text, "%s takes -3.4028235e+38 to 3.4028235e+38, +, and 0 to 255", type->name); return;
    case FORM_NUMBER_STATUS: sprintf(text, "%s takes 0 to 255, +, and 0 to 255", type->name); return;
    case FORM_OCTETS_STATUS: sprintf(text, "%s takes %zu hex digits, +, and 0 to 255", type->name, 2 * (length - 1)); return;
    case FORM_OCTETS: sprintf(text, "%s takes %zu hex digits", type->name, 2 * length); return;
    }
}

int signal_number(const struct signal_type *type, const uint8_t *octets, size_t length, double *number, size_t *rest)
{
    *rest = type->form == FORM_FLOAT_STATUS || type->form == FORM_NUMBER_STATUS ? 1 : 0;
    switch (type->form) {
    case FORM_UNSIGNED:
    case FORM_NUMBER_STATUS: *number = (double)unsigned_of(octets, length - *rest); return 1;
    case FORM_SIGNED: *number = (double)signed_of(octets, length); return 1;
    case FORM_FLOAT:
    case FORM_FLOAT_STATUS: *number = length - *rest == 4 ? (double)single_of(octets) : double_of(octets); return 1;
    default: return 0;
    }
}
