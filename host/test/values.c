/* The values of signals alone: reads lines whose words are separated by tabs, and answers each with a line.
 *
 *   length TYPE             its octets, 0 if it has no fixed length, or `no type`
 *   print TYPE HEX          the value of these octets
 *   parse TYPE LENGTH TEXT  the octets of this value, or why it is not a value
 */
#include "signal_types.h"
#include "words.h"
#include <stdio.h>
#include <stdlib.h>
#include <string.h>

#define LINE 65536
#define WORDS 4

/* Parts a line at its tabs. */
static int part(char *line, char *words[WORDS])
{
    int count = 0;
    line[strcspn(line, "\n")] = '\0';
    for (; line != NULL && count < WORDS; count++) {
        char *tab = strchr(line, '\t');
        words[count] = line;
        line = tab == NULL ? NULL : tab + 1;
        if (tab != NULL)
            *tab = '\0';
    }
    return count;
}

static void print(const struct signal_type *type, const char *hex)
{
    static uint8_t octets[SIGNAL_OCTETS];
    static char text[SIGNAL_VALUE];
    long length = words_octets(hex, octets, sizeof octets);
    /* A copy of exactly this length, so that a read beyond its end is found. */
    uint8_t *exact = malloc(length > 0 ? (size_t)length : 1);
    if (exact == NULL || length <= 0 || (type->length != 0 && length != type->length)) {
        puts("no octets of this type");
    } else {
        memcpy(exact, octets, (size_t)length);
        signal_print(text, type, exact, (size_t)length);
        puts(text);
    }
    free(exact);
}

static void parse(const struct signal_type *type, size_t length, const char *value)
{
    static char text[SIGNAL_VALUE], range[SIGNAL_RANGE];
    uint8_t *octets = malloc(length);
    if (octets != NULL && signal_parse(value, type, octets, length)) {
        words_hex(text, octets, length);
        puts(text);
    } else {
        signal_range(range, type, length);
        puts(range);
    }
    free(octets);
}

int main(void)
{
    static char line[LINE];
    while (fgets(line, sizeof line, stdin) != NULL) {
        char *words[WORDS];
        int count = part(line, words);
        const struct signal_type *type = count > 1 ? signal_type(words[1]) : NULL;
        if (type == NULL)
            puts("no type");
        else if (count == 2 && strcmp(words[0], "length") == 0)
            printf("%u\n", type->length);
        else if (count == 3 && strcmp(words[0], "print") == 0)
            print(type, words[2]);
        else if (count == 4 && strcmp(words[0], "parse") == 0)
            parse(type, strtoul(words[2], NULL, 10), words[3]);
        else
            puts("no line");
    }
    return 0;
}
