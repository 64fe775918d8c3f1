/* The options that both programs have, and how a command line is read. */
#ifndef HOST_OPTIONS_H
#define HOST_OPTIONS_H

#include <getopt.h>
#include <stdint.h>

struct shared_options {
    const char *interface;
    const char *socket;
    const char *socket_group; /* a group that may use the socket too, or NULL */
    uint64_t period;          /* nanoseconds; 0: the option is absent */
    int realtime;
};

/* The entries of these options in a list for getopt_long, including its end. */
#define SHARED_OPTIONS                                                                                                          \
    {"socket", required_argument, NULL, 'u'}, {"socket-group", required_argument, NULL, 'g'}, {"period", required_argument, NULL, 'p'}, \
    {"realtime", required_argument, NULL, 'r'}, {"help", no_argument, NULL, 'h'}, {"version", no_argument, NULL, 'v'},          \
    {NULL, 0, NULL, 0}

/* How a program reads its own options. */
struct command_line {
    const struct option *known;
    void (*usage)(void);
    /* Takes an option of this program. Returns whether it is one. */
    int (*take)(void *options, int option, const char *word);
};

/* Ends the program with a message that names --help. */
_Noreturn void options_misused(const char *why, const char *word);

/* Reads all options, and answers --help and --version. Returns the index of the first other word. */
int options_read(const struct command_line *line, struct shared_options *shared, void *options, int count, char *words[]);

#endif
