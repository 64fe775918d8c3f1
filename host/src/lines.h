/* Lines in and out: over the standard streams, or over a unix socket that several programs may open. Output never blocks the program: what
 * a reader has not read is kept up to a limit; beyond it lines are lost and counted. */
#ifndef HOST_LINES_H
#define HOST_LINES_H

#include <poll.h>
#include <stddef.h>
#include <stdint.h>

#define LINES_TALKERS 9      /* the standard streams and eight others */
#define LINES_LONGEST 4096   /* octets of a received line */
#define LINES_KEPT 65536     /* octets that wait for a reader */
#define LINES_POLLS (LINES_TALKERS + 1)

/* A reader and writer of lines. */
struct talker {
    int in;  /* -1 if it does not exist or has ended */
    int out; /* -1 if it does not exist */
    int is_socket;
    int is_too_long; /* applies to the line that is being read */
    char given[LINES_LONGEST];
    size_t given_length;
    char kept[LINES_KEPT];
    size_t kept_first;
    size_t kept_length;
    uint64_t lost;
    uint64_t turn; /* which program it is, from 1 on; 0 for the standard streams */
};

struct lines {
    const char *path; /* of the socket, or NULL */
    int listener;
    int is_terminal;
    char status[256]; /* shown below all lines on a terminal */
    struct talker talkers[LINES_TALKERS];
    struct talker *asking; /* the sender of the line that is being answered, or NULL */
    const char *name;      /* the station whose lines these are, or NULL */
    uint64_t turns;        /* programs that have opened the socket */
    struct talker log;     /* standard error, if the lines go over a socket */
};

/* A function that sends a line: lines_tell, lines_report or lines_answer. */
typedef void (*lines_writer)(struct lines *lines, const char *format, ...) __attribute__((format(printf, 2, 3)));

/* Opens the standard streams, or a socket with this path instead. Only its owner and the members of `group` may use the socket; NULL for
 * no group. */
void lines_open(struct lines *lines, const char *path, const char *group);

/* Closes all, and removes the socket's name. */
void lines_close(struct lines *lines);

/* Fills in what to wait for, at most LINES_POLLS entries. Returns their number. */
nfds_t lines_polls(struct lines *lines, struct pollfd *polls);

/* Reads what arrived, and passes each line to `take`, which may change it. */
void lines_take(struct lines *lines, void (*take)(void *context, char *line), void *context);

/* Sets the station whose lines follow: its name and a blank are in front of each. NULL: nothing is in front. */
void lines_speak_for(struct lines *lines, const char *name);

/* Sends a line to all readers. A warning, whose format begins with `warning: `, is also logged as lines_report does it. */
void lines_tell(struct lines *lines, const char *format, ...) __attribute__((format(printf, 2, 3)));

/* Sends a line to all readers. If the lines go over a socket it is also written to standard error, after the program's name: what a journal
 * has of the program, such as states and ends, and never data. */
void lines_report(struct lines *lines, const char *format, ...) __attribute__((format(printf, 2, 3)));

/* Sends a line to the sender of the line that is being answered. */
void lines_answer(struct lines *lines, const char *format, ...) __attribute__((format(printf, 2, 3)));

/* Sends a line to one reader, without the name of a station. */
void lines_send(struct lines *lines, unsigned talker, const char *line);

/* Whether standard input has ended, or is not read. */
int lines_input_has_ended(const struct lines *lines);

/* How many octets a reader has room for, after what waits for it is written as far as possible; 0 if it has no room. */
size_t lines_room(struct lines *lines, unsigned talker);

/* Which reader sent the line that is being answered, or -1. */
int lines_asker(const struct lines *lines);

/* Sets the text below all lines on a terminal. */
void lines_status(struct lines *lines, const char *text);

/* How many lines were lost because the reader did not read. */
uint64_t lines_lost(const struct lines *lines);

#endif
