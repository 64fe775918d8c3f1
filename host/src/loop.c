#define _GNU_SOURCE
#include "loop.h"
#include "nandutable.h"
#include "say.h"
#include "words.h"
#include <inttypes.h>
#include <string.h>

#define FRAMES_AT_ONCE 64
#define MOST_WORDS 12 /* of a line: the name of a station, and at most eleven others */
#define IDLE_PERIOD 10000000u /* nanoseconds */

void loop_must(uint32_t answer, const char *call)
{
    if (answer != PN_OK)
        fail(STATUS_SOFTWARE, "%s returned %u: the library and this program do not fit", call, (unsigned)answer);
}

void loop_open(struct loop *loop, const struct shared_options *shared)
{
    lines_open(&loop->lines, shared->socket, shared->socket_group);
    if (shared->realtime != 0)
        wake_realtime(shared->realtime);
    wake_open(&loop->wake);
}

void loop_start(struct loop *loop, const struct events *events, void *context)
{
    loop->events = events;
    loop->context = context;
    ticker_open(&loop->ticker);
    loop_pace(loop, 1);
}

void loop_pace(struct loop *loop, int is_idle)
{
    loop->is_idle = is_idle;
    if (loop->period != 0)
        ticker_pace(&loop->ticker, is_idle ? IDLE_PERIOD : loop->period);
}

/* Without a period: wakes when something is due, and for what is checked now and then. */
static void arm(struct loop *loop)
{
    uint64_t now = ticker_now(), look = loop->next_look > now ? (loop->next_look - now) / PN_UNIT_NS + 1 : 1;
    uint64_t due;
    if (loop->period != 0)
        return;
    loop->due = loop->events->due(loop->context);
    due = loop->due < loop->apart ? loop->apart : loop->due;
    if (loop->events->write_due != NULL && loop->events->write_due(loop->context) < due)
        due = loop->events->write_due(loop->context);
    ticker_arm(&loop->ticker, due < look ? due : look);
}

/* What to do about a link that is down. */
static void tell_down(struct loop *loop)
{
    char words[WIRE_WHY];
    lines_report(&loop->lines, "link down (%s)", wire_why_down(&loop->wire, words));
}

void loop_tell_link(struct loop *loop)
{
    if (!loop->wire.is_up)
        tell_down(loop);
}

static void take_time(struct loop *loop)
{
    const struct events *events = loop->events;
    uint64_t most = loop->period == 0 ? (uint64_t)loop->due + PN_MOST_DEBT : loop->is_idle ? events->idle_most : PN_MOST_DEBT;
    uint32_t due = ticker_due(&loop->ticker, most);
    if (due == 0)
        return;
    loop->units += due;
    while (due != 0)
        due = events->tick(loop->context, due);
    events->look(loop->context);
}

/* Without a period: the time before a frame, as far as nothing is due in it. */
static void take_quiet_time(struct loop *loop)
{
    uint32_t units = ticker_due_before(&loop->ticker, loop->due - 1);
    loop->units += units;
    while (units != 0)
        units = loop->events->tick(loop->context, units);
}

static void take_frames(struct loop *loop)
{
    static uint8_t octets[WIRE_FRAME];
    const struct events *events = loop->events;
    size_t length;
    /* Waiting frames are handed in before the elapsed time, because they arrived before its end: a delayed program must not judge its
     * partner to be silent. There is a limit for each turn, so that a flood of frames does not delay the time. Units with which nothing is
     * due are handed in before the frame, however many they are: so the timers that it starts begin with its own time. */
    for (int i = 0; i < FRAMES_AT_ONCE && wire_receive(&loop->wire, octets, &length); i++) {
        if (loop->period == 0)
            take_quiet_time(loop);
        else if (loop->is_idle)
            take_time(loop);
        events->take_frame(loop->context, octets, length);
        if (loop->period == 0)
            loop->due = events->due(loop->context);
    }
}

/* Whether to look for frames. If none waited and the program was not delayed since, this spares a call of the system. */
static int may_have_frames(struct loop *loop)
{
    return loop->wake.has_frames || loop->period != 0 || ticker_over(&loop->ticker) > loop->due;
}

static void help(struct loop *loop)
{
    for (const struct command *command = loop->events->commands; command->word != NULL; command++)
        if (command->help != NULL)
            lines_answer(&loop->lines, "%s", command->help);
    for (const char *const *more = loop->events->more_help; more != NULL && *more != NULL; more++)
        lines_answer(&loop->lines, "%s", *more);
}

static void carry_out(struct loop *loop, const struct command *command, char *words[])
{
    if (command->take != NULL)
        command->take(loop->context, words);
    else if (strcmp(command->word, "statistics") == 0)
        loop->events->statistics(loop->context, lines_answer);
    else
        loop->wake.is_ended = 1;
}

/* The line with this word and this number of words; otherwise the first one with this word. */
static const struct command *find_command(const struct loop *loop, const char *word, int count)
{
    const struct command *found = NULL;
    for (const struct command *command = loop->events->commands; command->word != NULL; command++)
        if (strcmp(command->word, word) == 0 && (found == NULL || command->count == count))
            found = command;
    return found;
}

/* Says that no line begins with this word, and names the nearest word that does. */
static void refuse_word(struct loop *loop, const char *word)
{
    const struct events *events = loop->events;
    struct near near = {.word = word};
    for (const struct command *command = events->commands; command->word != NULL; command++)
        near_try(&near, command->word);
    for (const char *const *more = events->more_words; more != NULL && *more != NULL; more++)
        near_try(&near, *more);
    near_try(&near, "help");
    if (events->try_names != NULL)
        events->try_names(loop->context, &near);
    if (near.found == NULL)
        lines_answer(&loop->lines, "wrong: no such line; `help` lists them");
    else
        lines_answer(&loop->lines, "wrong: no such line; did you mean `%s`? `help` lists them", near.found);
}

static void take_words(struct loop *loop, char *words[], int count)
{
    const struct command *command = find_command(loop, words[0], count);
    if (command != NULL && command->count == count)
        carry_out(loop, command, words);
    else if (command != NULL)
        lines_answer(&loop->lines, "wrong: %s", command->help);
    else if (count == 1 && strcmp(words[0], "help") == 0)
        help(loop);
    else
        refuse_word(loop, words[0]);
}

static void take_line(void *context, char *line)
{
    struct loop *loop = context;
    const struct events *events = loop->events;
    char *words[MOST_WORDS + 1];
    int count, named = 0;
    if (events->take_line != NULL && events->take_line(loop->context, line))
        return;
    count = words_part(line, words, MOST_WORDS);
    if (count == 0)
        return;
    words[count < 0 ? MOST_WORDS : count] = NULL;
    if (count > 1 && events->choose != NULL)
        named = events->choose(loop->context, words[0]);
    take_words(loop, words + named, count - named);
    if (named)
        events->choose(loop->context, NULL);
}

static void look_at_stalls(struct loop *loop)
{
    if (ticker_tells(&loop->ticker))
        lines_report(&loop->lines, "stall: %" PRIu64 " units of time were forgotten since the start, in %" PRIu64 " stalls", loop->ticker.forgotten,
                   loop->ticker.stalls);
}

/* What is checked now and then. */
static void look_around(struct loop *loop)
{
    int change;
    if (ticker_now() < loop->next_look)
        return;
    loop->next_look = ticker_now() + loop->events->look_each;
    change = wire_look(&loop->wire);
    if (change > 0)
        lines_report(&loop->lines, "link up");
    else if (change < 0)
        tell_down(loop);
    look_at_stalls(loop);
    if (loop->events->look_around != NULL)
        loop->events->look_around(loop->context);
    loop->wake.has_lines = 1; /* continues to write what waits for a reader */
}

void loop_run(struct loop *loop)
{
    const struct events *events = loop->events;
    while (!events->is_over(loop->context)) {
        arm(loop);
        wake_wait(&loop->wake, &loop->wire, &loop->ticker, &loop->lines);
        loop->wakes++;
        if (may_have_frames(loop))
            take_frames(loop);
        take_time(loop);
        look_around(loop);
        if (loop->wake.has_lines) {
            loop->wake.has_lines = 0;
            lines_take(&loop->lines, take_line, loop);
        }
        if (events->write != NULL)
            events->write(loop->context);
        if (loop->wake.is_asked) {
            loop->wake.is_asked = 0;
            events->statistics(loop->context, lines_tell);
        }
    }
}

void loop_tell_frames(struct loop *loop, lines_writer tell)
{
    tell(&loop->lines, "statistics seconds %" PRIu64, (ticker_now() - loop->ticker.started) / SECOND);
    tell(&loop->lines, "frames received %" PRIu64 " sent %" PRIu64 " not-sent %" PRIu64 " missed %" PRIu64, loop->wire.received, loop->wire.sent,
         loop->wire.not_sent, wire_missed(&loop->wire));
}

void loop_tell_time(struct loop *loop, lines_writer tell)
{
    tell(&loop->lines, "time units %" PRIu64 " forgotten %" PRIu64 " stalls %" PRIu64 " most-at-once %" PRIu64, loop->ticker.given,
         loop->ticker.forgotten, loop->ticker.stalls, loop->ticker.longest);
    tell(&loop->lines, "wakes %" PRIu64, loop->wakes);
}

void loop_tell_intervals(struct loop *loop, const struct histogram *intervals, lines_writer tell)
{
    tell(&loop->lines, "interval count %" PRIu64 " p50 %" PRIu64 " p99 %" PRIu64 " max %" PRIu64 " us", intervals->total, histogram_within(intervals, 500),
         histogram_within(intervals, 990), (intervals->most + 500) / 1000);
}

void loop_answer_places(struct loop *loop, const char *label, const struct places *places)
{
    for (unsigned i = 0; i < places->count; i++) {
        char text[STATION_LINE];
        station_line(text, label, &places->list[i]);
        lines_answer(&loop->lines, "%s", text);
    }
}
