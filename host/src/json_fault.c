#include "json_fault.h"
#include "json.h"
#include <ctype.h>
#include <stdlib.h>
#include <string.h>

/* The library accepts no deeper nesting than this. */
#define DEPTH 128u

struct text {
    const uint8_t *first;
    const uint8_t *at;
    const uint8_t *end;
    const char *why; /* NULL: no fault yet */
};

static int refuse(struct text *text, const char *why)
{
    text->why = why;
    return 0;
}

static void pass_blanks(struct text *text)
{
    while (text->at < text->end && (*text->at == ' ' || *text->at == '\t' || *text->at == '\r' || *text->at == '\n'))
        text->at++;
}

/* The next character; 0 at the end. */
static uint8_t next(const struct text *text)
{
    return text->at < text->end ? *text->at : 0;
}

/* --- UTF-8 --- */

/* How many octets the character at a place has; 0 if no character is there (RFC 3629). */
static size_t character(const uint8_t *at, const uint8_t *end)
{
    static const struct {
        uint8_t first, last, least, most;
        size_t length;
    } forms[] = {{0x00, 0x7F, 0, 0, 1},       {0xC2, 0xDF, 0x80, 0xBF, 2}, {0xE0, 0xE0, 0xA0, 0xBF, 3}, {0xE1, 0xEC, 0x80, 0xBF, 3}, {0xED, 0xED, 0x80, 0x9F, 3},
                 {0xEE, 0xEF, 0x80, 0xBF, 3}, {0xF0, 0xF0, 0x90, 0xBF, 4}, {0xF1, 0xF3, 0x80, 0xBF, 4}, {0xF4, 0xF4, 0x80, 0x8F, 4}};
    for (size_t i = 0; i < sizeof forms / sizeof forms[0]; i++) {
        if (*at < forms[i].first || *at > forms[i].last)
            continue;
        if ((size_t)(end - at) < forms[i].length || (forms[i].length > 1 && (at[1] < forms[i].least || at[1] > forms[i].most)))
            return 0;
        for (size_t k = 2; k < forms[i].length; k++)
            if (at[k] < 0x80 || at[k] > 0xBF)
                return 0;
        return forms[i].length;
    }
    return 0;
}

static int is_utf8(struct text *text)
{
    const uint8_t *first = text->at;
    while (text->at < text->end) {
        size_t length = character(text->at, text->end);
        if (length == 0)
            return refuse(text, "these octets are no UTF-8");
        text->at += length;
    }
    text->at = first;
    return 1;
}

/* --- Values --- */

/* The number that the four hex digits of `\u` make; -1 if they are not hex digits. */
static long unit(const struct text *text)
{
    char digits[5] = {0};
    if (text->end - text->at < 6 || text->at[0] != '\\' || text->at[1] != 'u')
        return -1;
    for (int i = 0; i < 4; i++) {
        if (!isxdigit(text->at[2 + i]))
            return -1;
        digits[i] = (char)text->at[2 + i];
    }
    return strtol(digits, NULL, 16);
}

static int pass_escape(struct text *text)
{
    long first = unit(text), second;
    if (text->end - text->at >= 2 && memchr("\"\\/bfnrt", text->at[1], 8) != NULL) {
        text->at += 2;
        return 1;
    }
    if (first < 0)
        return refuse(text, "there is no such escape: a backslash comes before one of \" \\ / b f n r t, or u and four hex digits");
    if (first >= 0xDC00 && first <= 0xDFFF)
        return refuse(text, "half of a pair of surrogates is no character");
    text->at += 6;
    if (first < 0xD800 || first > 0xDBFF)
        return 1;
    second = unit(text);
    if (second < 0xDC00 || second > 0xDFFF)
        return refuse(text, "half of a pair of surrogates is no character");
    text->at += 6;
    return 1;
}

static int pass_string(struct text *text)
{
    const uint8_t *first = text->at++;
    while (text->at < text->end && *text->at != '"') {
        if (*text->at == '\n' || *text->at == '\r') {
            text->at = first;
            return refuse(text, "this string does not end on its line: a '\"' is missing");
        }
        if (*text->at < 0x20)
            return refuse(text, "a string has no control characters");
        if (*text->at == '\\' ? !pass_escape(text) : (text->at++, 0))
            return 0;
    }
    if (text->at == text->end) {
        text->at = first;
        return refuse(text, "this string does not end: a '\"' is missing");
    }
    text->at++;
    return 1;
}

static size_t pass_digits(struct text *text)
{
    const uint8_t *first = text->at;
    while (isdigit(next(text)))
        text->at++;
    return (size_t)(text->at - first);
}

static int pass_number(struct text *text)
{
    const uint8_t *first;
    text->at += next(text) == '-';
    first = text->at;
    if (pass_digits(text) == 0)
        return refuse(text, "a number has digits");
    if (*first == '0' && text->at - first > 1) {
        text->at = first;
        return refuse(text, "a number does not begin with 0");
    }
    if (next(text) == '.') {
        text->at++;
        if (pass_digits(text) == 0)
            return refuse(text, "a point has digits after it");
    }
    if (next(text) == 'e' || next(text) == 'E') {
        text->at++;
        text->at += next(text) == '-' || next(text) == '+';
        if (pass_digits(text) == 0)
            return refuse(text, "an exponent has digits");
    }
    return 1;
}

static int pass_word(struct text *text)
{
    static const char *const words[] = {"true", "false", "null"};
    for (size_t i = 0; i < sizeof words / sizeof words[0]; i++) {
        size_t length = strlen(words[i]);
        if ((size_t)(text->end - text->at) >= length && memcmp(text->at, words[i], length) == 0) {
            text->at += length;
            return 1;
        }
    }
    if (next(text) == '/' || next(text) == '#')
        return refuse(text, "JSON has no comments");
    if (next(text) == '\'')
        return refuse(text, "a string is between '\"'");
    return refuse(text, text->at == text->end ? "the text ends here, and a value is missing" : "a value is missing here");
}

static int pass_value(struct text *text, unsigned depth);

/* A key and its value. */
static int pass_member(struct text *text, unsigned depth)
{
    if (next(text) != '"')
        return refuse(text, next(text) == '}' ? "after a ',' comes another key" : "a key is missing here: a string between '\"'");
    if (!pass_string(text))
        return 0;
    pass_blanks(text);
    if (next(text) != ':')
        return refuse(text, "a ':' is missing after the key");
    text->at++;
    return pass_value(text, depth);
}

/* An object or a list, up to its end. */
static int pass_all(struct text *text, uint8_t end, unsigned depth)
{
    if (depth == DEPTH)
        return refuse(text, "the text is nested too deep");
    text->at++;
    pass_blanks(text);
    if (next(text) == end) {
        text->at++;
        return 1;
    }
    for (;;) {
        pass_blanks(text);
        if (end == ']' && next(text) == ']')
            return refuse(text, "after a ',' comes another value");
        if (end == '}' ? !pass_member(text, depth + 1) : !pass_value(text, depth + 1))
            return 0;
        pass_blanks(text);
        if (next(text) == end) {
            text->at++;
            return 1;
        }
        if (next(text) != ',')
            return refuse(text, end == '}' ? "a ',' or a '}' is missing here" : "a ',' or a ']' is missing here");
        text->at++;
    }
}

static int pass_value(struct text *text, unsigned depth)
{
    pass_blanks(text);
    switch (next(text)) {
    case '{': return pass_all(text, '}', depth);
    case '[': return pass_all(text, ']', depth);
    case '"': return pass_string(text);
    default: return next(text) == '-' || isdigit(next(text)) ? pass_number(text) : pass_word(text);
    }
}

static int is_json(struct text *text)
{
    static const uint8_t mark[] = {0xEF, 0xBB, 0xBF};
    if ((size_t)(text->end - text->at) >= sizeof mark && memcmp(text->at, mark, sizeof mark) == 0)
        return refuse(text, "a byte order mark, which JSON does not have");
    if (!is_utf8(text) || !pass_value(text, 0))
        return 0;
    pass_blanks(text);
    return text->at == text->end ? 1 : refuse(text, "the text is not over after its value");
}

/* --- Places --- */

static unsigned line_of(const uint8_t *first, const uint8_t *at)
{
    unsigned line = 1;
    for (; first < at; first++)
        line += *first == '\n';
    return line;
}

int json_find_fault(const uint8_t *octets, size_t length, struct json_fault *fault)
{
    struct text text = {octets, octets, octets + length, NULL};
    const uint8_t *begin;
    if (is_json(&text))
        return 0;
    for (begin = text.at; begin > text.first && begin[-1] != '\n'; begin--)
        ;
    *fault = (struct json_fault){.line = line_of(text.first, text.at), .column = 1, .why = text.why};
    for (; begin < text.at; begin++)
        fault->column += (*begin & 0xC0) != 0x80; /* the first octet of a character */
    return 1;
}

/* Goes to the value of the next step of a place: a key, or the number of an entry. Returns whether it is there. */
static int step(struct json *json, const char **place)
{
    char key[JSON_TEXT + 1];
    size_t length;
    struct json found;
    if (**place == '[') {
        unsigned long number = strtoul(*place + 1, NULL, 10);
        int more = json_first(*json, &found);
        for (; more && number > 0; number--)
            more = json_further(&found);
        *place += strcspn(*place, "]");
        *place += **place == ']';
        if (more)
            *json = found;
        return more;
    }
    *place += **place == '.';
    length = strcspn(*place, ".[");
    if (length > JSON_TEXT)
        return 0;
    memcpy(key, *place, length);
    key[length] = '\0';
    *place += length;
    if (!json_member(*json, key, &found))
        return 0;
    *json = found;
    return 1;
}

unsigned json_line(const uint8_t *text, size_t length, const char *place)
{
    struct json json = {(const char *)text, (const char *)text + length};
    while (*place != '\0' && step(&json, &place))
        ;
    /* Nothing but one key may be missing. */
    if (strcspn(place, ".[") != strlen(place))
        return 0;
    json_next(&json);
    return line_of(text, (const uint8_t *)json.at);
}
