#define _GNU_SOURCE
#include "lines.h"
#include "say.h"
#include <errno.h>
#include <fcntl.h>
#include <grp.h>
#include <stdarg.h>
#include <stdio.h>
#include <string.h>
#include <sys/socket.h>
#include <sys/stat.h>
#include <sys/un.h>
#include <unistd.h>

#define NOBODY (-1)
#define LINE_ROOM 4096 /* octets of a written line */

/* --- Sockets --- */

static struct sockaddr_un address_of(const char *path)
{
    struct sockaddr_un address = {.sun_family = AF_UNIX};
    if (strlen(path) >= sizeof address.sun_path)
        fail(STATUS_USAGE, "the path of the socket is longer than %zu letters", sizeof address.sun_path - 1);
    strcpy(address.sun_path, path);
    return address;
}

/* Removes a socket that an ended process left. */
static void remove_left(const char *path, const struct sockaddr_un *address)
{
    struct stat found;
    int fd;
    if (lstat(path, &found) != 0)
        return;
    if (!S_ISSOCK(found.st_mode))
        fail(STATUS_CREATE, "'%s' exists and is not a socket: name another path with --socket", path);
    fd = socket(AF_UNIX, SOCK_STREAM | SOCK_CLOEXEC, 0);
    if (fd >= 0 && connect(fd, (const struct sockaddr *)address, sizeof *address) == 0)
        fail(STATUS_IN_USE, "the socket '%s' is in use by another process", path);
    if (fd >= 0)
        close(fd);
    unlink(path);
}

/* Lets the members of a group use the socket of this path. */
static void share(const char *path, const char *group)
{
    const struct group *found;
    errno = 0;
    found = getgrnam(group);
    if (found == NULL)
        fail(STATUS_USAGE, "there is no group '%s' for --socket-group%s%s", group, errno != 0 ? ": " : "", errno != 0 ? strerror(errno) : "");
    if (chown(path, (uid_t)-1, found->gr_gid) != 0 || chmod(path, 0660) != 0)
        fail(STATUS_CREATE, "the socket '%s' cannot be given to the group '%s': %s (the user who starts the program must be a member)", path, group, strerror(errno));
}

static int listen_at(const char *path, const char *group)
{
    struct sockaddr_un address = address_of(path);
    mode_t before;
    int fd, is_bound;
    remove_left(path, &address);
    fd = socket(AF_UNIX, SOCK_STREAM | SOCK_NONBLOCK | SOCK_CLOEXEC, 0);
    if (fd < 0)
        fail(STATUS_SYSTEM, "the system refuses a socket: %s", strerror(errno));
    before = umask(0177); /* only for the owner */
    is_bound = bind(fd, (struct sockaddr *)&address, sizeof address) == 0;
    umask(before);
    if (is_bound && group != NULL)
        share(path, group);
    if (!is_bound || listen(fd, LINES_TALKERS) != 0)
        fail(STATUS_CREATE, "the socket '%s' cannot be made: %s", path, strerror(errno));
    return fd;
}

static void let_in(struct lines *lines)
{
    int fd = accept4(lines->listener, NULL, NULL, SOCK_NONBLOCK | SOCK_CLOEXEC);
    if (fd < 0)
        return;
    for (int i = 1; i < LINES_TALKERS; i++) {
        struct talker *talker = &lines->talkers[i];
        if (talker->in != NOBODY || talker->out != NOBODY)
            continue;
        memset(talker, 0, sizeof *talker);
        talker->in = talker->out = fd;
        talker->is_socket = 1;
        talker->turn = ++lines->turns;
        return;
    }
    close(fd); /* all places are in use */
}

/* --- Opening --- */

/* Opens a terminal or a pipe again as non-blocking, so that a write never waits for its reader: the stream itself may be shared with other
 * programs, for which it would become non-blocking too. If it cannot be opened, returns the stream. */
static int without_waiting(int fd)
{
    struct stat found;
    char path[32];
    int again;
    if (fstat(fd, &found) != 0 || (!S_ISCHR(found.st_mode) && !S_ISFIFO(found.st_mode)))
        return fd;
    snprintf(path, sizeof path, "/proc/self/fd/%d", fd);
    again = open(path, O_WRONLY | O_NONBLOCK | O_NOCTTY | O_CLOEXEC);
    return again < 0 ? fd : again;
}

void lines_open(struct lines *lines, const char *path, const char *group)
{
    memset(lines, 0, sizeof *lines);
    for (int i = 0; i < LINES_TALKERS; i++)
        lines->talkers[i].in = lines->talkers[i].out = NOBODY;
    lines->path = path;
    lines->listener = lines->log.in = lines->log.out = NOBODY;
    if (path != NULL) {
        lines->listener = listen_at(path, group);
        lines->log.out = without_waiting(STDERR_FILENO);
        return;
    }
    lines->talkers[0].in = STDIN_FILENO;
    lines->talkers[0].out = without_waiting(STDOUT_FILENO);
    lines->is_terminal = isatty(STDOUT_FILENO) == 1;
}

static void leave(struct talker *talker)
{
    if (talker->is_socket && talker->out != NOBODY)
        close(talker->out);
    talker->in = talker->out = NOBODY;
    talker->kept_length = 0;
}

/* --- Writing --- */

/* Whether a write would not block. */
static int is_ready(int fd)
{
    struct pollfd one = {.fd = fd, .events = POLLOUT};
    return poll(&one, 1, 0) == 1 && (one.revents & POLLOUT) != 0 && (one.revents & (POLLERR | POLLHUP)) == 0;
}

/* Writes what waits, as far as possible without blocking. */
static void flush(struct talker *talker)
{
    while (talker->kept_length != 0 && talker->out != NOBODY) {
        size_t length = LINES_KEPT - talker->kept_first;
        ssize_t done;
        if (length > talker->kept_length)
            length = talker->kept_length;
        if (length > 512)
            length = 512; /* if the stream could not be opened again and is a ready pipe, it accepts this many at once */
        if (!is_ready(talker->out))
            return;
        done = write(talker->out, talker->kept + talker->kept_first, length);
        if (done < 0) {
            if (errno != EINTR && errno != EAGAIN)
                leave(talker);
            return;
        }
        talker->kept_first = (talker->kept_first + (size_t)done) % LINES_KEPT;
        talker->kept_length -= (size_t)done;
    }
}

/* Appends a text to what waits, completely or not at all. */
static void put(struct talker *talker, const char *text, size_t length)
{
    if (talker->out == NOBODY)
        return;
    if (length > LINES_KEPT - talker->kept_length) {
        talker->lost++;
        return;
    }
    for (size_t i = 0; i < length; i++)
        talker->kept[(talker->kept_first + talker->kept_length + i) % LINES_KEPT] = text[i];
    talker->kept_length += length;
    flush(talker);
}

/* Puts a line; on a terminal before the status, which is written again below it. */
static void put_line(struct lines *lines, struct talker *talker, const char *line)
{
    char text[LINE_ROOM + 300];
    int has_status = talker == &lines->talkers[0] && lines->is_terminal && lines->status[0] != '\0';
    int length = has_status ? snprintf(text, sizeof text, "\r\033[K%s\n%s", line, lines->status) : snprintf(text, sizeof text, "%s\n", line);
    put(talker, text, (size_t)length < sizeof text ? (size_t)length : sizeof text - 1);
}

void lines_speak_for(struct lines *lines, const char *name)
{
    lines->name = name;
}

/* Writes a line, after the name of its station if it has one. */
static void write_line(const struct lines *lines, char line[LINE_ROOM], const char *format, va_list values)
{
    size_t head = 0;
    if (lines->name != NULL)
        head = (size_t)snprintf(line, LINE_ROOM, "%s ", lines->name);
    vsnprintf(line + head, LINE_ROOM - head, format, values);
}

static void put_to_all(struct lines *lines, const char *line)
{
    for (int i = 0; i < LINES_TALKERS; i++)
        put_line(lines, &lines->talkers[i], line);
}

/* Puts a line into the log, as the program's other messages are written. */
static void put_log(struct lines *lines, const char *line)
{
    char text[LINE_ROOM + 64];
    int length;
    if (lines->log.out == NOBODY)
        return;
    length = snprintf(text, sizeof text, "%s: %s\n", say_name(), line);
    put(&lines->log, text, (size_t)length < sizeof text ? (size_t)length : sizeof text - 1);
}

void lines_tell(struct lines *lines, const char *format, ...)
{
    static const char warning[] = "warning: ";
    char line[LINE_ROOM];
    va_list values;
    va_start(values, format);
    write_line(lines, line, format, values);
    va_end(values);
    put_to_all(lines, line);
    if (strncmp(format, warning, sizeof warning - 1) == 0)
        put_log(lines, line);
}

void lines_report(struct lines *lines, const char *format, ...)
{
    char line[LINE_ROOM];
    va_list values;
    va_start(values, format);
    write_line(lines, line, format, values);
    va_end(values);
    put_to_all(lines, line);
    put_log(lines, line);
}

void lines_answer(struct lines *lines, const char *format, ...)
{
    char line[LINE_ROOM];
    va_list values;
    va_start(values, format);
    write_line(lines, line, format, values);
    va_end(values);
    for (int i = 0; i < LINES_TALKERS; i++)
        if (lines->asking == NULL || lines->asking == &lines->talkers[i])
            put_line(lines, &lines->talkers[i], line);
}

void lines_send(struct lines *lines, unsigned talker, const char *line)
{
    put_line(lines, &lines->talkers[talker], line);
}

size_t lines_room(struct lines *lines, unsigned talker)
{
    struct talker *one = &lines->talkers[talker];
    flush(one);
    return one->out == NOBODY ? 0 : LINES_KEPT - one->kept_length;
}

int lines_asker(const struct lines *lines)
{
    return lines->asking == NULL ? -1 : (int)(lines->asking - lines->talkers);
}

void lines_status(struct lines *lines, const char *text)
{
    char shown[300];
    int length;
    if (!lines->is_terminal || strcmp(text, lines->status) == 0)
        return;
    snprintf(lines->status, sizeof lines->status, "%s", text);
    length = snprintf(shown, sizeof shown, "\r\033[K%s", lines->status);
    put(&lines->talkers[0], shown, (size_t)length);
}

uint64_t lines_lost(const struct lines *lines)
{
    uint64_t sum = 0;
    for (int i = 0; i < LINES_TALKERS; i++)
        sum += lines->talkers[i].lost;
    return sum;
}

void lines_close(struct lines *lines)
{
    if (lines->is_terminal && lines->status[0] != '\0')
        put(&lines->talkers[0], "\n", 1);
    for (int i = 0; i < LINES_TALKERS; i++) {
        flush(&lines->talkers[i]);
        leave(&lines->talkers[i]);
    }
    flush(&lines->log);
    if (lines->listener != NOBODY) {
        close(lines->listener);
        unlink(lines->path);
    }
}

/* --- Reading --- */

int lines_input_has_ended(const struct lines *lines)
{
    return lines->talkers[0].in == NOBODY;
}

nfds_t lines_polls(struct lines *lines, struct pollfd *polls)
{
    nfds_t count = 0;
    if (lines->listener != NOBODY)
        polls[count++] = (struct pollfd){.fd = lines->listener, .events = POLLIN};
    for (int i = 0; i < LINES_TALKERS; i++) {
        const struct talker *talker = &lines->talkers[i];
        if (talker->in != NOBODY)
            polls[count++] = (struct pollfd){.fd = talker->in, .events = POLLIN};
    }
    return count;
}

/* Passes each complete line to `take`, and keeps the rest. */
static void give_lines(struct lines *lines, struct talker *talker, void (*take)(void *, char *), void *context)
{
    char *line = talker->given, *end;
    size_t left = talker->given_length;
    while ((end = memchr(line, '\n', left)) != NULL) {
        *end = '\0';
        lines->asking = talker;
        if (talker->is_too_long)
            lines_answer(lines, "wrong: a line has at most %d letters", LINES_LONGEST - 1);
        else
            take(context, line);
        lines->asking = NULL;
        talker->is_too_long = 0;
        left -= (size_t)(end + 1 - line);
        line = end + 1;
    }
    if (left == LINES_LONGEST) {
        talker->is_too_long = 1;
        left = 0;
    }
    memmove(talker->given, line, left);
    talker->given_length = left;
}

static void read_from(struct lines *lines, struct talker *talker, void (*take)(void *, char *), void *context)
{
    ssize_t got = read(talker->in, talker->given + talker->given_length, LINES_LONGEST - talker->given_length);
    if (got > 0) {
        talker->given_length += (size_t)got;
        give_lines(lines, talker, take, context);
    } else if (got == 0 || (errno != EINTR && errno != EAGAIN)) {
        if (talker->is_socket)
            leave(talker);
        talker->in = NOBODY; /* no more lines can arrive; reports are still written */
    }
}

void lines_take(struct lines *lines, void (*take)(void *context, char *line), void *context)
{
    struct pollfd polls[LINES_POLLS];
    nfds_t count = lines_polls(lines, polls);
    if (count != 0 && poll(polls, count, 0) > 0) {
        for (nfds_t i = 0; i < count; i++) {
            if (polls[i].revents == 0)
                continue;
            if (polls[i].fd == lines->listener)
                let_in(lines);
            for (int k = 0; k < LINES_TALKERS; k++)
                if (lines->talkers[k].in == polls[i].fd)
                    read_from(lines, &lines->talkers[k], take, context);
        }
    }
    for (int i = 0; i < LINES_TALKERS; i++)
        flush(&lines->talkers[i]);
    flush(&lines->log);
}
