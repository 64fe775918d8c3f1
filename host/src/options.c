#define _GNU_SOURCE
#include "options.h"
#include "near.h"
#include "say.h"
#include "words.h"
#include <stdio.h>
#include <stdlib.h>
#include <string.h>

#define VERSION "0.1.0"

_Noreturn void options_misused(const char *why, const char *word)
{
    fail(STATUS_USAGE, "%s%s (%s --help)", why, word, say_name());
}

static void take_period(struct shared_options *shared, const char *word)
{
    unsigned long number;
    if (!words_number(word, 10000, &number) || number < 31)
        options_misused("--period takes 31 to 10000 microseconds: ", word);
    shared->period = number * 1000;
}

static void take_realtime(struct shared_options *shared, const char *word)
{
    unsigned long number;
    if (!words_number(word, 99, &number) || number < 1)
        options_misused("--realtime takes 1 to 99: ", word);
    shared->realtime = (int)number;
}

static void take_shared(struct shared_options *shared, int option, const char *word)
{
    switch (option) {
    case 'u': shared->socket = word; return;
    case 'g': shared->socket_group = word; return;
    case 'p': take_period(shared, word); return;
    case 'r': take_realtime(shared, word); return;
    default: fail(STATUS_SOFTWARE, "an option is listed and not handled");
    }
}

/* Ends the program because of an option that there is not, and names the nearest one. */
static _Noreturn void no_option(const struct option *known, const char *word)
{
    char name[NEAR_LONGEST + 1];
    struct near near = {.word = name};
    snprintf(name, sizeof name, "%.*s", (int)strcspn(word + strspn(word, "-"), "="), word + strspn(word, "-"));
    for (const struct option *option = known; option->name != NULL; option++)
        near_try(&near, option->name);
    /* The option that begins with the word is rather meant. */
    for (; known->name != NULL && strlen(name) > 2; known++)
        if (strncmp(known->name, name, strlen(name)) == 0)
            near.found = known->name;
    if (near.found == NULL)
        options_misused("there is no such option: ", word);
    fail(STATUS_USAGE, "there is no such option: %s; did you mean --%s? (%s --help)", word, near.found, say_name());
}

/* Refuses an abbreviation, which getopt_long would take for the one option that begins with it: `--real` is no `--realtime`. */
static void check_whole(const struct option *known, const struct option *option, const char *word)
{
    size_t length = strlen(option->name);
    if (strncmp(word, "--", 2) != 0 || strncmp(word + 2, option->name, length) != 0 || (word[2 + length] != '\0' && word[2 + length] != '='))
        no_option(known, word);
}

/* The word of the option that was read last: its argument is in the same word, or in the one after it. */
static const char *option_word(char *words[])
{
    return words[optarg != NULL && optarg == words[optind - 1] ? optind - 2 : optind - 1];
}

/* Ends the program because of an option that is unknown, that takes no argument, or whose argument is missing. */
static _Noreturn void refuse(const struct option *known, int answer, char *words[])
{
    const char *word = words[optind - 1];
    const char letter[] = {'-', (char)optopt, '\0'};
    for (const struct option *option = known; optopt != 0 && option->name != NULL; option++)
        if (option->val == optopt)
            check_whole(known, option, word);
    if (answer == ':')
        options_misused("its argument is missing: ", word);
    if (optopt == 0)
        no_option(known, word);
    if (strncmp(word, "--", 2) == 0)
        options_misused("this option takes no argument: ", word);
    options_misused("there is no such option: ", letter);
}

int options_read(const struct command_line *line, struct shared_options *shared, void *options, int count, char *words[])
{
    int option, place = -1;
    opterr = 0;
    while ((option = getopt_long(count, words, ":h", line->known, &place)) != -1) {
        if (option == '?' || option == ':')
            refuse(line->known, option, words);
        if (place >= 0)
            check_whole(line->known, &line->known[place], option_word(words));
        place = -1;
        if (option == 'h') {
            line->usage();
            exit(0);
        }
        if (option == 'v') {
            printf("%s %s\n", say_name(), VERSION);
            exit(0);
        }
        if (!line->take(options, option, optarg))
            take_shared(shared, option, optarg);
    }
    return optind;
}
