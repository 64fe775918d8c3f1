#include "ports.h"
#include "words.h"
#include <stdio.h>
#include <string.h>

/* BlockTypes, and where their contents begin. */
#define TYPE_MULTIPLE 0x0400u
#define TYPE_PORT 0x020Fu
#define HEADER 6u
#define MULTIPLE 16u /* header, padding, API, slot and subslot */
#define PORT 12u     /* header, padding, slot and subslot */

/* After the names of a neighbour: LineDelay, its MAC address, and padding. */
#define AFTER_NAMES 12u

/* Words that are written one after another. */
struct words {
    char *text;
    size_t size;
    int is_json; /* each port is an object, with a comma in front of all but the first */
};

/* A name in a record: its octets after their number. */
struct name {
    const uint8_t *octets;
    size_t length;
};

/* Appends words if they fit as a whole. */
static void append(struct words *words, const char *more)
{
    size_t length = strlen(words->text);
    if (strlen(more) < words->size - length)
        strcpy(words->text + length, more);
}

/* Reads a name at a place of a block, and moves the place to the octet after it. Returns whether it is whole. */
static int read_name(const uint8_t *block, size_t size, size_t *at, struct name *name)
{
    if (*at >= size || block[*at] >= size - *at)
        return 0;
    *name = (struct name){block + *at + 1, block[*at]};
    *at += 1 + name->length;
    return 1;
}

static const char *show(char shown[256], const struct name *name)
{
    return words_show_text(shown, 256, name->octets, name->length);
}

/* A port as an object, with its neighbour if it has one. */
static void show_object(struct words *words, const struct name *port, const struct name *peer_port, const struct name *peer)
{
    char one[WORDS_JSON(255)], two[WORDS_JSON(255)] = "null", three[WORDS_JSON(255)] = "null", line[4 * WORDS_JSON(255)];
    words_json(one, port->octets, port->length);
    if (peer != NULL) {
        words_json(two, peer_port->octets, peer_port->length);
        words_json(three, peer->octets, peer->length);
    }
    snprintf(line, sizeof line, "%s{\"port\": %s, \"neighbour_port\": %s, \"neighbour\": %s}", words->text[0] == '\0' ? "" : ", ", one, two, three);
    append(words, line);
}

/* Padding is counted from the begin of the block. */
static size_t aligned(size_t at)
{
    return (at + 3) / 4 * 4;
}

static void show_peer(struct words *words, const struct name *port, const struct name *peer_port, const struct name *peer)
{
    char one[256], two[256], three[256], line[800];
    if (words->is_json) {
        show_object(words, port, peer_port, peer);
        return;
    }
    snprintf(line, sizeof line, "  port '%s' to '%s' of '%s'", show(one, port), show(two, peer_port), show(three, peer));
    append(words, line);
}

/* The neighbours of a port. */
static int read_peers(const uint8_t *block, size_t size, size_t at, const struct name *port, unsigned count, struct words *words)
{
    struct name peer_port, peer;
    for (; count > 0; count--) {
        if (!read_name(block, size, &at, &peer_port) || !read_name(block, size, &at, &peer))
            return 0;
        at = aligned(at) + AFTER_NAMES;
        if (at > size)
            return 0;
        show_peer(words, port, &peer_port, &peer);
    }
    return 1;
}

static int read_port(const uint8_t *block, size_t size, struct words *words)
{
    char shown[256], line[300];
    size_t at = PORT;
    struct name port;
    if (!read_name(block, size, &at, &port) || at >= size)
        return 0;
    if (block[at] != 0)
        return read_peers(block, size, aligned(at + 1), &port, block[at], words);
    if (words->is_json) {
        show_object(words, &port, NULL, NULL);
        return 1;
    }
    snprintf(line, sizeof line, "  port '%s' to nobody", show(shown, &port));
    append(words, line);
    return 1;
}

/* Reads blocks one after another. Fewer octets than a header at the end are padding. */
static int read_blocks(const uint8_t *octets, size_t length, unsigned depth, struct words *words)
{
    for (size_t at = 0; at + HEADER <= length;) {
        const uint8_t *block = octets + at;
        unsigned type = (unsigned)(block[0] << 8 | block[1]);
        size_t size = 4 + (size_t)(block[2] << 8 | block[3]);
        int is_whole = size >= HEADER && size <= length - at;
        if (is_whole && type == TYPE_MULTIPLE)
            is_whole = depth == 0 && size >= MULTIPLE && read_blocks(block + MULTIPLE, size - MULTIPLE, 1, words);
        else if (is_whole && type == TYPE_PORT)
            is_whole = read_port(block, size, words);
        if (!is_whole)
            return 0;
        at += size;
    }
    return 1;
}

int ports_words(const uint8_t *octets, size_t length, char *words, size_t size)
{
    struct words all = {words, size, 0};
    words[0] = '\0';
    return read_blocks(octets, length, 0, &all);
}

int ports_json(const uint8_t *octets, size_t length, char *words, size_t size)
{
    struct words all = {words, size, 1};
    words[0] = '\0';
    return read_blocks(octets, length, 0, &all);
}
