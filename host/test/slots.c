/* Why a module is not allowed in its slot: slots FILE. Prints it, or - if that cannot be said. */
#include "slots.h"
#include <stdio.h>

static uint8_t text[1 << 20];

int main(int count, char *words[])
{
    char why[SLOTS_WORDS];
    FILE *file = count == 2 ? fopen(words[1], "rb") : NULL;
    const char *said;
    if (file == NULL)
        return 64;
    said = slots_why(text, fread(text, 1, sizeof text, file), why);
    puts(said == NULL ? "-" : said);
    fclose(file);
    return 0;
}
