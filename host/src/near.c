#include "near.h"
#include <ctype.h>
#include <string.h>

/* A word is near another one if one begins with the other, from this many letters on. */
#define BEGINNING 4

static char lower(char letter)
{
    return (char)tolower((unsigned char)letter);
}

static size_t least(size_t one, size_t other)
{
    return one < other ? one : other;
}

size_t near_distance(const char *one, const char *other)
{
    size_t rows[3][NEAR_LONGEST + 1], *before = rows[0], *last = rows[1], *row = rows[2], count = strlen(other);
    for (size_t i = 0; i <= count; i++)
        last[i] = i;
    for (size_t k = 1; one[k - 1] != '\0'; k++) {
        size_t *oldest = before;
        row[0] = k;
        for (size_t i = 1; i <= count; i++) {
            char mine = lower(one[k - 1]), its = lower(other[i - 1]);
            row[i] = least(least(last[i], row[i - 1]) + 1, last[i - 1] + (mine != its));
            if (k > 1 && i > 1 && mine == lower(other[i - 2]) && lower(one[k - 2]) == its)
                row[i] = least(row[i], before[i - 2] + 1);
        }
        before = last;
        last = row;
        row = oldest;
    }
    return last[count];
}

static int is_beginning(const char *one, const char *other)
{
    size_t i = 0;
    while (one[i] != '\0' && lower(one[i]) == lower(other[i]))
        i++;
    return one[i] == '\0' && i >= BEGINNING;
}

int near_is(const char *one, const char *other)
{
    return 3 * near_distance(one, other) <= strlen(one) || is_beginning(one, other) || is_beginning(other, one);
}

void near_try(struct near *near, const char *candidate)
{
    size_t apart;
    if (strlen(near->word) > NEAR_LONGEST || strlen(candidate) > NEAR_LONGEST || !near_is(near->word, candidate))
        return;
    apart = near_distance(near->word, candidate);
    if (near->found != NULL && apart >= near->apart)
        return;
    near->found = candidate;
    near->apart = apart;
}
