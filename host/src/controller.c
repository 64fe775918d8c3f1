/* nandutable-controller: the controllers of stations on a network interface, each by the plan of a catalogue. */
#define _GNU_SOURCE
#include "arp.h"
#include "diagnosis.h"
#include "listing.h"
#include "naming.h"
#include "options.h"
#include "place.h"
#include "reading.h"
#include "reasons.h"
#include "relation.h"
#include "routing.h"
#include "say.h"
#include "signals.h"
#include "streams.h"
#include "warnings.h"
#include "words.h"
#include <inttypes.h>
#include <stdio.h>
#include <stdlib.h>
#include <string.h>

/* With a period: before the Connect only requests are due, one a second. */
#define IDLE_MOST 32000u /* units */
/* Of several relations frames are due at many units: those of this many go out together. */
#define APART 8u
#define UNITS_A_SECOND 32000u
/* How long a state of the start-up lasts at most, and the wait for ApplicationReady, if --patience does not say it. */
#define PATIENCE (10 * UNITS_A_SECOND)
#define WAITING_PATIENCE (60 * UNITS_A_SECOND)
/* How often to write the status. */
#define STATUS_EACH (SECOND / 4)

struct options {
    struct shared_options shared;
    char **plans;
    unsigned plan_count;
    uint8_t assigned[6]; /* the station that first gets the plan's name */
    int has_assigned;
    int is_forced; /* the name is set even if another station has it or the plan's address */
    const char *place; /* the name by its place of the station that first gets the plan's name, or NULL */
    int is_list;
    int is_json; /* the list is JSON */
    struct access access; /* the record to read */
    int is_read;
    const char *from; /* the station whose record is read: its name or its MAC address; NULL: that of the plan */
    char **words;     /* the whole command line, */
    int count;        /* and the number of its words */
    uint64_t pause; /* after which a controller that ended is started again, in nanoseconds; 0: it is not */
    uint32_t patience;         /* for how many units a state of the start-up lasts at most; 0: no limit */
    uint32_t waiting_patience; /* the same for the wait for ApplicationReady */
    int has_signals;
    int is_without_octets; /* --signals=only */
    int ends_with_input;
    struct signals_options signals;
};

struct controller {
    struct loop loop;
    struct relation *relations; /* one for each plan */
    unsigned count;
    int is_kernel_told;      /* that the kernel has the controller's address too */
    struct relation *chosen; /* the one that the line that is being read names, or NULL */
    uint64_t pause;
    int is_stopped; /* by a line or a signal: no controller is started again */
    int ends_with_input; /* it stops when standard input ends */
    uint64_t others; /* received frames that are for none of several relations */
    struct signals signals;
};

/* --- Each relation --- */

/* Sets whose lines follow: with more than one plan the station's name is in front of them. NULL: the program's own. */
static void speak_for(struct controller *controller, const struct relation *relation)
{
    lines_speak_for(&controller->loop.lines, relation != NULL && controller->count > 1 ? relation->station : NULL);
}

static void for_each(struct controller *controller, void (*act)(struct relation *relation))
{
    for (unsigned i = 0; i < controller->count; i++) {
        speak_for(controller, &controller->relations[i]);
        act(&controller->relations[i]);
    }
    speak_for(controller, NULL);
}

/* Writes a part of the statistics for the chosen relation, or for each. */
static void tell_each(struct controller *controller, lines_writer tell, void (*part)(struct relation *relation, lines_writer tell))
{
    for (unsigned i = 0; i < controller->count; i++) {
        struct relation *relation = &controller->relations[i];
        if (controller->chosen != NULL && controller->chosen != relation)
            continue;
        speak_for(controller, relation);
        part(relation, tell);
    }
    speak_for(controller, NULL);
}

/* --- Reports --- */

/* The status of several stations in one line. */
static void status_of_all(const struct controller *controller, char *text, size_t size)
{
    uint64_t cyclic = 0, lost = 0;
    unsigned exchanging = 0;
    for (unsigned i = 0; i < controller->count; i++) {
        exchanging += controller->relations[i].state == PN_DATA_EXCHANGE;
        cyclic += controller->relations[i].cyclic;
        lost += controller->relations[i].lost;
    }
    snprintf(text, size, "exchanging %u of %u | %" PRIu64 " frames | lost %" PRIu64, exchanging, controller->count, cyclic, lost);
}

static void keep_status(struct controller *controller)
{
    char text[256];
    if (controller->count == 1)
        relation_status(&controller->relations[0], text, sizeof text);
    else
        status_of_all(controller, text, sizeof text);
    lines_status(&controller->loop.lines, text);
}

/* Nothing is due at a unit of time while no relation is past the setting of its address. */
static void keep_pace(struct controller *controller)
{
    int is_idle = 1;
    for (unsigned i = 0; i < controller->count; i++)
        is_idle &= controller->relations[i].state < PN_CONNECTING || relation_is_over(&controller->relations[i]);
    if (is_idle != controller->loop.is_idle)
        loop_pace(&controller->loop, is_idle);
}

static void look_at_state(struct controller *controller, struct relation *relation)
{
    if (!relation_is_changed(relation))
        return;
    keep_pace(controller);
    keep_status(controller);
    relation_tell_state(relation);
}

static void look_at_states(void *context)
{
    struct controller *controller = context;
    for (unsigned i = 0; i < controller->count; i++) {
        speak_for(controller, &controller->relations[i]);
        look_at_state(controller, &controller->relations[i]);
    }
    speak_for(controller, NULL);
}

/* --- Events --- */

static uint32_t tick(void *context, uint32_t units)
{
    struct controller *controller = context;
    (void)units;
    for (unsigned i = 0; i < controller->count; i++)
        if (controller->relations[i].due_at <= controller->loop.units && relation_needs_time(&controller->relations[i]))
            relation_tick(&controller->relations[i]);
    return 0;
}

static uint32_t due(void *context)
{
    const struct controller *controller = context;
    uint64_t first = controller->loop.units + UINT32_MAX;
    for (unsigned i = 0; i < controller->count; i++)
        if (controller->relations[i].due_at < first && relation_needs_time(&controller->relations[i]))
            first = controller->relations[i].due_at;
    return first > controller->loop.units ? (uint32_t)(first - controller->loop.units) : 1;
}

/* A frame of ARP, ICMP or LLDP: all controllers have one address, and the first one answers for it. */
static void serve(struct controller *controller, const uint8_t *octets, size_t length)
{
    struct relation *sender = routing_find_sender(controller->relations, controller->count, octets, length);
    relation_serve(&controller->relations[0], octets, length);
    if (wire_is_lldp(octets, length))
        relation_look_at_neighbour(&controller->relations[0]);
    if (sender != NULL)
        relation_hear_arp(sender, octets, length);
}

/* The controller that tools see: all have one address, and the first one with an identity answers. NULL if none has one. */
static struct relation *find_seen(struct controller *controller)
{
    for (unsigned i = 0; i < controller->count; i++)
        if (controller->relations[i].plan.identity.station_type_length != 0)
            return &controller->relations[i];
    return NULL;
}

/* The controller for which a frame is, or NULL. */
static struct relation *find(struct controller *controller, const uint8_t *octets, size_t length)
{
    if (controller->count == 1)
        return controller->relations;
    if (routing_is_request(octets, length))
        return find_seen(controller);
    return routing_find(controller->relations, controller->count, octets, length);
}

static void take_frame(void *context, const uint8_t *octets, size_t length)
{
    struct controller *controller = context;
    struct relation *relation;
    uint32_t before;
    if (wire_is_service(octets, length) || wire_is_lldp(octets, length)) {
        serve(controller, octets, length);
        return;
    }
    relation = find(controller, octets, length);
    if (relation == NULL) {
        controller->others++;
        return;
    }
    before = relation->state;
    speak_for(controller, relation);
    relation_take(relation, octets, length);
    look_at_state(controller, relation);
    relation_look_at_data(relation, octets, length, before);
    speak_for(controller, NULL);
}

static void stop(struct controller *controller, struct relation *relation)
{
    relation->is_stopped = 1;
    relation->is_wanted = 0;
    if (relation->state == PN_ENDED)
        return;
    relation_stop(relation);
    speak_for(controller, relation);
    look_at_state(controller, relation);
    speak_for(controller, NULL);
}

/* The kernel answers ARP, and calls, for each of its own addresses, on every interface. It is reported again if the kernel did not have the
 * address at the start before. */
static void look_at_kernel(struct controller *controller)
{
    const char *other = wire_with_address(controller->relations[0].plan.controller_address);
    if (other != NULL && !controller->is_kernel_told)
        lines_tell(&controller->loop.lines, "warning: the kernel has the controller's address on %s and answers for it too: remove it (`ip address del`)", other);
    controller->is_kernel_told = other != NULL;
}

static void start_again(struct controller *controller, struct relation *relation)
{
    speak_for(controller, NULL);
    look_at_kernel(controller);
    speak_for(controller, relation);
    relation_make(relation, &controller->loop);
    relation_begin(relation);
    look_at_state(controller, relation);
}

/* Whether a controller that has ended must be started again. */
static int is_wanted_again(const struct controller *controller, const struct relation *relation)
{
    return !controller->is_stopped && (relation->is_wanted || (controller->pause != 0 && !relation->is_stopped));
}

/* Whether it is time for that. */
static int is_due_again(const struct controller *controller, const struct relation *relation)
{
    return is_wanted_again(controller, relation) && relation_is_over(relation) &&
           (relation->is_wanted || ticker_now() >= relation->ended_at + controller->pause);
}

static void look_around(void *context)
{
    struct controller *controller = context;
    for (unsigned i = 0; i < controller->count; i++) {
        struct relation *relation = &controller->relations[i];
        speak_for(controller, relation);
        relation_tell_waiting(relation);
        if (is_due_again(controller, relation))
            start_again(controller, relation);
    }
    speak_for(controller, NULL);
    relation_look_at_neighbour(&controller->relations[0]);
    keep_pace(controller);
    keep_status(controller);
}

static int are_all_ended(const struct controller *controller)
{
    for (unsigned i = 0; i < controller->count; i++)
        if (controller->relations[i].state != PN_ENDED)
            return 0;
    return 1;
}

/* On the first request all controllers stop, and the program waits for the answers to their Releases; on the second it does not wait. */
static int is_over(void *context)
{
    struct controller *controller = context;
    if (controller->ends_with_input && lines_input_has_ended(&controller->loop.lines)) {
        controller->ends_with_input = 0;
        controller->loop.wake.is_ended = 1;
    }
    if (controller->loop.wake.is_ended && are_all_ended(controller))
        return 1;
    if (controller->loop.wake.is_ended) {
        controller->loop.wake.is_ended = 0;
        controller->is_stopped = 1;
        for (unsigned i = 0; i < controller->count; i++)
            stop(controller, &controller->relations[i]);
    }
    for (unsigned i = 0; i < controller->count; i++)
        if (!relation_is_over(&controller->relations[i]) || is_wanted_again(controller, &controller->relations[i]))
            return 0;
    return 1;
}

/* --- Lines --- */

static int choose(void *context, const char *name)
{
    struct controller *controller = context;
    controller->chosen = NULL;
    for (unsigned i = 0; name != NULL && i < controller->count; i++)
        if (strcmp(controller->relations[i].station, name) == 0)
            controller->chosen = &controller->relations[i];
    return controller->chosen != NULL;
}

static void try_names(void *context, struct near *near)
{
    const struct controller *controller = context;
    for (unsigned i = 0; i < controller->count; i++)
        near_try(near, controller->relations[i].station);
}

static void statistics(void *context, lines_writer tell)
{
    struct controller *controller = context;
    struct lines *lines = &controller->loop.lines;
    if (controller->chosen == NULL)
        loop_tell_frames(&controller->loop, tell);
    if (controller->chosen == NULL && controller->count > 1)
        tell(lines, "frames for no station %" PRIu64, controller->others);
    tell_each(controller, tell, relation_tell_cyclic);
    if (controller->chosen == NULL)
        loop_tell_time(&controller->loop, tell);
    tell_each(controller, tell, relation_tell_times);
    if (controller->chosen == NULL)
        tell(lines, "neighbours not reported %" PRIu64, controller->relations[0].neighbours_left_out);
    if (controller->chosen == NULL)
        tell(lines, "lines lost %" PRIu64, lines_lost(lines));
}

static void show(void *context, char *words[])
{
    struct controller *controller = context;
    (void)words;
    if (controller->chosen == NULL) {
        for_each(controller, relation_show);
        return;
    }
    speak_for(controller, controller->chosen);
    relation_show(controller->chosen);
    speak_for(controller, NULL);
}

/* What a program that has just opened the socket did not see: the link, the neighbour and each station. */
static void take_stations(void *context, char *words[])
{
    struct controller *controller = context;
    struct lines *lines = &controller->loop.lines;
    char why[WIRE_WHY];
    (void)words;
    controller->chosen = NULL;
    tell_each(controller, lines_answer, relation_introduce);
    if (controller->loop.wire.is_up)
        lines_answer(lines, "link up");
    else
        lines_answer(lines, "link down (%s)", wire_why_down(&controller->loop.wire, why));
    lines_answer(lines, "neighbour %s", controller->relations[0].neighbour);
    for (unsigned i = 0; i < controller->count; i++)
        relation_answer_station(&controller->relations[i]);
    lines_answer(lines, "stations %u", controller->count);
}

/* A line that is for one station. */
static void take_for_one(struct controller *controller, char *words[], void (*take)(struct relation *relation, char *words[]), const char *form)
{
    struct relation *relation = controller->count == 1 ? controller->relations : controller->chosen;
    if (relation == NULL) {
        lines_answer(&controller->loop.lines, "wrong: no station has this name; NAME %s", form);
        return;
    }
    speak_for(controller, relation);
    take(relation, words);
    look_at_state(controller, relation);
    speak_for(controller, NULL);
}

static void take_give(void *context, char *words[])
{
    take_for_one(context, words, relation_give, "give SLOT SUBSLOT HEX");
}

static void take_status(void *context, char *words[])
{
    take_for_one(context, words, relation_rate, "status SLOT SUBSLOT good|bad");
}

static void take_read(void *context, char *words[])
{
    take_for_one(context, words, access_read, "read SLOT SUBSLOT INDEX");
}

static void take_write(void *context, char *words[])
{
    take_for_one(context, words, access_write, "write SLOT SUBSLOT INDEX HEX");
}

static void take_diagnosis(void *context, char *words[])
{
    take_for_one(context, words, diagnosis_take, "diagnosis reported|relation|device");
}

static void take_restart(void *context, char *words[])
{
    take_for_one(context, words, relation_restart, "restart");
}

/* The line `stop` of one of several stations; without a name it is the loop's. */
static void take_stop(void *context, char *words[])
{
    struct controller *controller = context;
    (void)words;
    if (controller->chosen == NULL)
        controller->loop.wake.is_ended = 1;
    else
        stop(controller, controller->chosen);
}

static int take_signal(void *context, char *line)
{
    struct controller *controller = context;
    return signals_take(&controller->signals, &controller->loop.lines, line);
}

static void write_signals(void *context)
{
    struct controller *controller = context;
    signals_write(&controller->signals, &controller->loop.lines);
}

static uint32_t signals_wait(void *context)
{
    struct controller *controller = context;
    return signals_due(&controller->signals, &controller->loop.lines);
}

static const struct command commands[] = {
    {"give", 4, take_give, "give SLOT SUBSLOT HEX   sets the output of a submodule"},
    {"status", 4, take_status, "status SLOT SUBSLOT good|bad   sets whether an output is good: its IOPS"},
    {"read", 4, take_read, "read SLOT SUBSLOT INDEX   reads a record, while data is exchanged"},
    {"write", 5, take_write, "write SLOT SUBSLOT INDEX HEX   writes a record, while data is exchanged"},
    {"diagnosis", 2, take_diagnosis, "diagnosis reported|relation|device   lists the diagnoses that alarms reported, and compares them with a record"},
    {"show", 1, show, "show                    state, status, inputs and outputs"},
    {"stations", 1, take_stations, "stations                the link, the neighbour, and the station with its MAC address, address, interval and state"},
    {"statistics", 1, NULL, "statistics              counts since the start"},
    {"restart", 1, take_restart, "restart                 releases the relation and starts it again, with all its parameters"},
    {"stop", 1, take_stop, "stop                    releases the relation and ends the program"},
    {NULL, 0, NULL, NULL}};

static const struct command commands_of_several[] = {
    {"give", 4, take_give, "NAME give SLOT SUBSLOT HEX   sets the output of a submodule of this station"},
    {"status", 4, take_status, "NAME status SLOT SUBSLOT good|bad   sets whether an output of this station is good: its IOPS"},
    {"read", 4, take_read, "NAME read SLOT SUBSLOT INDEX   reads a record of this station, while data is exchanged"},
    {"write", 5, take_write, "NAME write SLOT SUBSLOT INDEX HEX   writes a record of this station, while data is exchanged"},
    {"diagnosis", 2, take_diagnosis,
     "NAME diagnosis reported|relation|device   lists the diagnoses that alarms of this station reported, and compares them with a record"},
    {"show", 1, show, "[NAME] show                  state, status, inputs and outputs"},
    {"stations", 1, take_stations, "stations                     the link, the neighbour, and each station with its MAC address, address, interval and state"},
    {"statistics", 1, NULL, "[NAME] statistics            counts since the start"},
    {"restart", 1, take_restart, "NAME restart                 releases the relation of this station and starts it again, with all its parameters"},
    {"stop", 1, take_stop, "[NAME] stop                  releases the relation of this station; without a name, all, and ends the program"},
    {NULL, 0, NULL, NULL}};

/* --- The program --- */

static void usage(void)
{
    puts("Usage: nandutable-controller IFACE PLAN.json [PLAN.json ..] [OPTION ..]\n"
         "       nandutable-controller IFACE [PLAN.json] --list [--json]\n"
         "       nandutable-controller IFACE [PLAN.json] --read SLOT SUBSLOT INDEX\n"
         "                             [--from STATION]\n"
         "\n"
         "A PROFINET IO controller on the network interface IFACE. It finds the station of\n"
         "the plan by its name, sets its address, makes the relation, writes its records,\n"
         "and exchanges data until it is stopped. With several plans it does so with each\n"
         "station; the MAC address, the address and the name of the controller have to be\n"
         "the same in all of them.\n"
         "\n"
         "  PLAN.json             a catalogue in JSON with the keys of GSDML, such as\n"
         "                        host/demo/pump.json (installed:\n"
         "                        share/doc/nandutable/pump.json)\n"
         "\n"
         "Tools, which end when they are done:\n"
         "  --list                prints a line for each station that answers within a\n"
         "                        second, with its ports and their neighbours. It reads\n"
         "                        the ports from the controller's address of the plan;\n"
         "                        without a plan from that of IFACE, if it has one\n"
         "  --json                prints the list as JSON\n"
         "  --read SLOT SUBSLOT INDEX\n"
         "                        prints a record of the station of the plan, which is\n"
         "                        read without a relation, in hex, and in words what is\n"
         "                        known of it. INDEX is decimal, or 0x and hex digits:\n"
         "                        0xAFF0 is I&M0, 0xF000 what is plugged. The call comes\n"
         "                        from the same address as with --list\n"
         "  --from STATION        reads the record of the station with this name or this\n"
         "                        MAC address instead\n"
         "\n"
         "A name before the start; each takes one plan:\n"
         "  --assign MAC          first sets the name of the plan permanently at the\n"
         "                        station with this MAC address. Refused if another\n"
         "                        station has this name or the plan's address\n"
         "  --force               sets the name anyway, with a warning\n"
         "  --replace PORT.STATION\n"
         "                        first sets the name of the plan permanently at the\n"
         "                        station whose cable leads to this port of this station,\n"
         "                        as LLDP says it (AliasName). Refused if no station\n"
         "                        answers to that place, more than one, or one that has a\n"
         "                        name, or if another station has the plan's name or\n"
         "                        address\n"
         "\n"
         "The relation:\n"
         "  --retry SECONDS       starts a controller again this long after its end, 1 to\n"
         "                        3600, unless it was stopped. Otherwise the program ends\n"
         "                        when all controllers have ended\n"
         "  --patience SECONDS    ends a controller whose start-up makes no progress: a\n"
         "                        state other than looking and exchanging lasts at most\n"
         "                        this long, 0 to 3600 (0: without a limit; default: 10,\n"
         "                        and 60 for the wait for ApplicationReady)\n");
    puts("Signals:\n"
         "  --signals[=only]      prints and accepts data by the names that the plan has\n"
         "                        (Signals of Project): NAME = VALUE good|bad on each\n"
         "                        change, and the lines set NAME VALUE, get NAME, names,\n"
         "                        modules. With =only the data is not printed in\n"
         "                        octets too\n"
         "  --deadband NAME=NUMBER\n"
         "                        prints this signal only if it differs by at least NUMBER\n"
         "                        from what was printed last\n"
         "  --every MS            prints a signal at most once in 1 to 60000 milliseconds\n"
         "  --times               the time of the change follows each signal: seconds\n"
         "                        since 1970\n");
    puts("How it runs:\n"
         "  --socket PATH         lines go in and out over this unix socket, and not over\n"
         "                        the standard streams; states, ends and warnings also go\n"
         "                        to standard error\n"
         "  --socket-group GROUP  the members of this group may use the socket too, not\n"
         "                        only its owner\n"
         "  --end-with-input      stops as at SIGTERM when its standard input ends, so\n"
         "                        also when the program that wrote to it ends\n"
         "  --period US           hands in time in this period, 31 to 10000 microseconds,\n"
         "                        and not only when something is due; choose at most the\n"
         "                        shortest interval of a plan\n"
         "  --realtime N          runs with this priority, 1 to 99, of the first-in\n"
         "                        first-out scheduler\n"
         "  --help, --version\n");
    puts("It needs the capability CAP_NET_RAW: run it as root, or run once\n"
         "  setcap cap_net_raw+ep nandutable-controller\n"
         "\n"
         "Examples:\n"
         "  nandutable-controller eth1 --list\n"
         "  nandutable-controller eth1 pump.json --read 0 1 0xAFF0\n"
         "  nandutable-controller eth1 --read 0 1 0xF000 --from 02:00:00:00:00:01\n"
         "  nandutable-controller eth1 pump.json --assign 02:00:00:00:00:01\n"
         "  nandutable-controller eth1 pump.json --replace port-002.switch-1\n"
         "  nandutable-controller eth1 pump.json valve.json --retry 5\n"
         "  nandutable-controller eth1 pump.json --signals --deadband level=5 --every 100\n"
         "  echo 'give 2 1 00ff' | nandutable-controller eth1 pump.json\n"
         "\n"
         "Lines that it accepts; `help` says what each does:\n"
         "  give SLOT SUBSLOT HEX              status SLOT SUBSLOT good|bad\n"
         "  read SLOT SUBSLOT INDEX            write SLOT SUBSLOT INDEX HEX\n"
         "  diagnosis reported|relation|device\n"
         "  stations   show   statistics   restart   stop   help\n"
         "With several plans the name of a station and a blank are in front of each line\n"
         "that it prints about this station, and of each line that is for one station. On\n"
         "SIGUSR1 it prints its statistics; SIGTERM stops it, and a second one ends it at\n"
         "once.\n"
         "\n"
         "Its status is the cause of its end (with several plans the lowest):\n"
         "   1 another device          5 ended by the device\n"
         "   2 refused                 6 an alarm without answer\n"
         "   3 other modules           7 stopped\n"
         "   4 data hold               8 no progress (--patience)\n"
         "  64 and more: it did not start. 64: words, or plans that do not fit together;\n"
         "  66: no station answers; 69: the station does not answer a call, or has no\n"
         "  address for it; 75: another station has the name or the address, or the\n"
         "  station at the place has a name");
}

static void take_pause(struct options *options, const char *word)
{
    unsigned long number;
    if (!words_number(word, 3600, &number) || number < 1)
        options_misused("--retry takes 1 to 3600 seconds: ", word);
    options->pause = number * SECOND;
}

/* `--signals`, or `--signals=only`. */
static void take_signals(struct options *options, const char *word)
{
    if (word != NULL && strcmp(word, "only") != 0)
        options_misused("it is --signals, or --signals=only: ", word);
    options->has_signals = 1;
    options->is_without_octets = word != NULL;
}

static void take_every(struct options *options, const char *word)
{
    unsigned long number;
    if (!words_number(word, 60000, &number) || number < 1)
        options_misused("--every takes 1 to 60000 milliseconds: ", word);
    options->signals.every = number * (SECOND / 1000);
}

static void take_patience(struct options *options, const char *word)
{
    unsigned long number;
    if (!words_number(word, 3600, &number))
        options_misused("--patience takes 0 to 3600 seconds: ", word);
    options->patience = options->waiting_patience = (uint32_t)number * UNITS_A_SECOND;
}

/* A name by a place has a dot between the port and the station. */
static void take_place(struct options *options, const char *word)
{
    if (strchr(word, '.') == NULL || strlen(word) > PLACE_LONGEST)
        options_misused("--replace takes PORT.STATION, such as port-002.switch-1: ", word);
    options->place = word;
}

/* `--read SLOT SUBSLOT INDEX`: getopt knows of one argument; the two after it are read here. */
static void take_record(struct options *options, char *word)
{
    char *words[3] = {word, NULL, NULL};
    if (optind + 2 > options->count)
        options_misused("--read takes SLOT SUBSLOT INDEX: ", word);
    words[1] = options->words[optind++];
    words[2] = options->words[optind++];
    if (!access_place(words, &options->access))
        options_misused("--read takes " ACCESS_PLACE, "");
    options->is_read = 1;
}

static int take_option(void *context, int option, const char *word)
{
    struct options *options = context;
    switch (option) {
    case 'l': options->is_list = 1; return 1;
    case 'j': options->is_json = 1; return 1;
    case 'd': take_record(options, optarg); return 1;
    case 'm': options->from = word; return 1;
    case 'f': options->is_forced = 1; return 1;
    case 't': take_pause(options, word); return 1;
    case 'E': take_patience(options, word); return 1;
    case 'n': take_signals(options, word); return 1;
    case 'b': options->signals.deadbands[options->signals.deadband_count++] = optarg; return 1;
    case 'e': take_every(options, word); return 1;
    case 'T': options->signals.has_times = 1; return 1;
    case 'I': options->ends_with_input = 1; return 1;
    case 'c': take_place(options, word); return 1;
    case 'a':
        if (!words_mac(word, options->assigned))
            options_misused("--assign takes six octets in hex between colons: ", word);
        options->has_assigned = 1;
        return 1;
    default: return 0;
    }
}

/* Refuses what does not go with --list and --read. `plain` are the words that are no option and no argument of one. */
static void check_tool(const struct options *options, int plain)
{
    int is_tool = options->is_list || options->is_read;
    if (options->is_list && options->is_read)
        options_misused("--list and --read exclude each other", "");
    if (is_tool && (options->has_assigned || options->place != NULL))
        options_misused(options->is_list ? "--list takes neither --assign nor --replace" : "--read takes neither --assign nor --replace", "");
    if (options->is_json && !options->is_list)
        options_misused("--json takes --list", "");
    if (options->from != NULL && !options->is_read)
        options_misused("--from takes --read", "");
    if (options->from != NULL && (options->from[0] == '\0' || strlen(options->from) > 240))
        options_misused("--from takes the name or the MAC address of a station: ", options->from);
    if (is_tool && (plain < 1 || plain > 2))
        options_misused("name a network interface, and at most one plan", "");
    if (options->is_read && options->from == NULL && plain < 2)
        options_misused("name the plan of the station, or the station by --from", "");
    if (!is_tool && plain < 2)
        options_misused("name a network interface and a plan, or several plans", "");
}

static void read_words(struct options *options, int count, char *words[])
{
    static const struct option known[] = {{"list", no_argument, NULL, 'l'},
                                          {"json", no_argument, NULL, 'j'},
                                          {"read", required_argument, NULL, 'd'},
                                          {"from", required_argument, NULL, 'm'},
                                          {"assign", required_argument, NULL, 'a'},
                                          {"force", no_argument, NULL, 'f'},
                                          {"replace", required_argument, NULL, 'c'},
                                          {"retry", required_argument, NULL, 't'},
                                          {"patience", required_argument, NULL, 'E'},
                                          {"signals", optional_argument, NULL, 'n'},
                                          {"deadband", required_argument, NULL, 'b'},
                                          {"every", required_argument, NULL, 'e'},
                                          {"times", no_argument, NULL, 'T'},
                                          {"end-with-input", no_argument, NULL, 'I'},
                                          SHARED_OPTIONS};
    const struct command_line line = {known, usage, take_option};
    int first;
    memset(options, 0, sizeof *options);
    options->words = words;
    options->count = count;
    options->patience = PATIENCE;
    options->waiting_patience = WAITING_PATIENCE;
    options->signals.deadbands = calloc((size_t)count + 1, sizeof *options->signals.deadbands);
    if (options->signals.deadbands == NULL)
        fail(STATUS_SYSTEM, "out of memory");
    first = options_read(&line, &options->shared, options, count, words);
    check_tool(options, count - first);
    if (options->shared.socket_group != NULL && options->shared.socket == NULL)
        options_misused("--socket-group takes --socket", "");
    if (options->is_forced && !options->has_assigned)
        options_misused("--force takes --assign", "");
    if (!options->has_signals && (options->signals.deadband_count != 0 || options->signals.every != 0 || options->signals.has_times))
        options_misused("--deadband, --every and --times take --signals", "");
    if (options->ends_with_input && (options->is_list || options->is_read || options->shared.socket != NULL))
        options_misused("--list, --read and --socket take no --end-with-input", "");
    if (options->has_signals && (options->is_list || options->is_read))
        options_misused("--list and --read take no --signals", "");
    options->shared.interface = words[first];
    options->plans = words + first + 1;
    options->plan_count = (unsigned)(count - first - 1);
    if (options->has_assigned && options->plan_count > 1)
        options_misused("--assign takes one plan", "");
    if (options->place != NULL && options->plan_count > 1)
        options_misused("--replace takes one plan", "");
    if (options->place != NULL && options->has_assigned)
        options_misused("--replace and --assign exclude each other", "");
}

/* The controller of a plan as a tool. */
static pn_tool tool_of(const pn_plan *plan)
{
    pn_tool tool = {.xid = naming_make_xid()};
    memcpy(tool.mac, plan->controller_mac, sizeof tool.mac);
    memcpy(tool.address, plan->controller_address, sizeof tool.address);
    return tool;
}

/* Ends the program because another station has a value of the plan; with --force only warns. */
static void refuse_or_warn(const struct options *options, const char *value, const uint8_t found[6])
{
    char mac[WORDS_MAC];
    words_show_mac(mac, found);
    if (!options->is_forced)
        fail(STATUS_IN_USE, "another station has %s: %s. Nothing was set%s", value, mac,
             options->has_assigned ? " (--force sets the name anyway)" : "");
    say("warning: another station has %s: %s", value, mac);
}

/* Looks for a station other than this one that has the name or the address of the plan. */
static void check_others(struct controller *controller, const struct options *options, const uint8_t station[6])
{
    const pn_plan *plan = &controller->relations[0].plan;
    uint8_t found[6];
    char value[sizeof plan->name + 16];
    say("asking for some five seconds whether another station has the name '%.*s' or the plan's address ..", (int)plan->name_length, (const char *)plan->name);
    if (naming_find(&controller->loop.wire, plan->controller_mac, plan->name, plan->name_length, station, found)) {
        snprintf(value, sizeof value, "the name '%.*s'", (int)plan->name_length, (const char *)plan->name);
        refuse_or_warn(options, value, found);
    }
    if (!arp_is_zero(plan->address) && arp_find(&controller->loop.wire, plan->controller_mac, plan->address, station, found)) {
        snprintf(value, sizeof value, "the address %u.%u.%u.%u", plan->address[0], plan->address[1], plan->address[2], plan->address[3]);
        refuse_or_warn(options, value, found);
    }
}

/* A tool asks once, so it says at once why no station can answer. */
static void say_link(const struct wire *wire)
{
    char words[WIRE_WHY];
    if (!wire->is_up)
        say("link down (%s)", wire_why_down(wire, words));
}

/* Sets the name of the plan at a station. */
static void assign(struct controller *controller, const struct options *options)
{
    const pn_plan *plan = &controller->relations[0].plan;
    char mac[WORDS_MAC];
    int answer;
    check_others(controller, options, options->assigned);
    say("setting the name at %s: for up to three seconds ..", words_show_mac(mac, options->assigned));
    answer = naming_assign(&controller->loop.wire, plan->controller_mac, options->assigned, plan->name, plan->name_length);
    if (answer < 0)
        fail(STATUS_NO_INPUT, "no station answers at %s (--list lists the stations)", words_show_mac(mac, options->assigned));
    if (answer > 0)
        fail(PN_WAS_REFUSED, "the station does not accept the name, BlockError %d: %s", answer, reasons_block_error((uint8_t)answer));
    say("the station %s has the name '%.*s' now", words_show_mac(mac, options->assigned), (int)plan->name_length, (const char *)plan->name);
}

/* Why no station gets the name of the plan; ends the program unless the station at the place has it already. */
static void refuse_place(const pn_plan *plan, const char *place, const pn_search *search, uint32_t why)
{
    int is_plans = search->length == plan->name_length && memcmp(search->name, plan->name, plan->name_length) == 0;
    char first[WORDS_MAC], other[WORDS_MAC], name[sizeof search->name + 1];
    words_show_mac(first, search->first);
    words_show_mac(other, search->other);
    words_show_text(name, sizeof name, search->name, search->length);
    if (why == PN_HAS_NAME && is_plans)
        say("the station at %s, %s, has the name '%s' already. Nothing was set", place, first, name);
    else if (why == PN_HAS_NAME)
        fail(STATUS_IN_USE, "the station at %s, %s, has the name '%s'. Nothing was set (--assign MAC sets the name of such a station)", place, first, name);
    else if (why == PN_SEVERAL)
        fail(STATUS_IN_USE, "more than one station answers to %s: %s and %s. Nothing was set", place, first, other);
    else if (why == PN_NOBODY)
        fail(STATUS_NO_INPUT, "no station answers to %s. Nothing was set (a station answers to the port and the name of its neighbour)", place);
    else
        fail(STATUS_IN_USE, "the station at %s, %s, does not say whether it has a name: %s. Nothing was set", place, first, pn_strerror(why));
}

/* A name in lower case. Returns whether it is another one. */
static int is_lowered(const char *name, char lower[PLACE_LONGEST + 1])
{
    size_t length = strlen(name);
    for (size_t i = 0; i <= length; i++)
        lower[i] = (char)(name[i] >= 'A' && name[i] <= 'Z' ? name[i] - 'A' + 'a' : name[i]);
    return strcmp(name, lower) != 0;
}

/* Sets the name of the plan at the station that answers to a name by its place, if it has none. */
static void replace(struct controller *controller, const struct options *options)
{
    const pn_plan *plan = &controller->relations[0].plan;
    pn_tool tool = tool_of(plan);
    struct wire *wire = &controller->loop.wire;
    const char *place = options->place;
    char mac[WORDS_MAC], lower[PLACE_LONGEST + 1];
    pn_search search;
    uint32_t why;
    int answer;
    say("asking for the station at %s ..", place);
    place_find(wire, &tool, place, &search);
    /* Names in DCP have no capitals; the port or the name of a neighbour that is no PROFINET station may have some. */
    if (search.stations == 0 && is_lowered(place, lower)) {
        say("no station answers to %s; names in DCP have no capitals, so %s is asked for", place, lower);
        place = lower;
        place_find(wire, &tool, place, &search);
    }
    why = place_judge(&tool, &search, plan->name, plan->name_length);
    if (why != PN_OK) {
        refuse_place(plan, place, &search, why);
        return;
    }
    check_others(controller, options, search.first);
    answer = place_name(wire, &tool, &search, plan->name, plan->name_length);
    words_show_mac(mac, search.first);
    if (answer < 0)
        fail(STATUS_NO_INPUT, "the station at %s, %s, does not answer the Set of its name; it may have the name now (--list shows it)", place, mac);
    if (answer > 0)
        fail(PN_WAS_REFUSED, "the station at %s, %s, does not accept the name, BlockError %d: %s", place, mac, answer,
             reasons_block_error((uint8_t)answer));
    say("the station at %s, %s, has the name '%.*s' now", place, mac, (int)plan->name_length, (const char *)plan->name);
}

/* Refuses two plans that name one station, or give one address to two. */
static void check_stations(const struct relation *one, const struct relation *other)
{
    const uint8_t *address = one->plan.address;
    if (strcmp(one->station, other->station) == 0)
        fail(STATUS_USAGE, "'%s' and '%s' are plans of one station, '%s' (Project.NameOfStation)", one->file, other->file, one->station);
    if (!arp_is_zero(address) && memcmp(address, other->plan.address, 4) == 0)
        fail(STATUS_USAGE, "'%s' and '%s' give their stations one address, %u.%u.%u.%u (Project.IPAddress)", one->file, other->file, address[0], address[1],
             address[2], address[3]);
}

/* Refuses two plans whose controllers are not the same one. */
static void check_controllers(const struct relation *one, const struct relation *other)
{
    const pn_plan *plan = &one->plan, *beside = &other->plan;
    const char *key = NULL;
    if (memcmp(plan->controller_mac, beside->controller_mac, 6) != 0)
        key = "MAC";
    else if (memcmp(plan->controller_address, beside->controller_address, 4) != 0)
        key = "IPAddress";
    else if (plan->controller_name_length != beside->controller_name_length ||
             memcmp(plan->controller_name, beside->controller_name, plan->controller_name_length) != 0)
        key = "NameOfStation";
    if (key != NULL)
        fail(STATUS_USAGE, "'%s' and '%s' are plans of different controllers (Project.Controller.%s)", one->file, other->file, key);
}

static void open_relations(struct controller *controller, const struct options *options)
{
    size_t size = options->plan_count * sizeof *controller->relations;
    controller->relations = aligned_alloc(_Alignof(struct relation), size);
    if (controller->relations == NULL)
        fail(STATUS_SYSTEM, "out of memory");
    memset(controller->relations, 0, size);
    controller->count = options->plan_count;
    controller->relations[0].serves = 1;
    for (unsigned i = 0; i < controller->count; i++) {
        relation_open(&controller->relations[i], options->plans[i]);
        controller->relations[i].plan.patience = options->patience;
        controller->relations[i].plan.waiting_patience = options->waiting_patience;
        controller->relations[i].plan.release_on_refused_record = 1;
        controller->relations[i].plan.persistent_start = 1;
        controller->relations[i].has_octets = !options->is_without_octets;
        for (unsigned k = 0; k < i; k++) {
            check_stations(&controller->relations[k], &controller->relations[i]);
            check_controllers(&controller->relations[k], &controller->relations[i]);
        }
    }
}

/* The controller of the plan, whose services answer ARP for the tool's address. Its first frame is not sent. */
static pn_controller *open_services(struct controller *controller)
{
    struct relation *relation = &controller->relations[0];
    relation_make(relation, &controller->loop);
    do
        loop_must(pn_controller_next(&relation->room, &relation->op), "pn_controller_next");
    while (relation->op.work == PN_SEND);
    return &relation->room;
}

/* Opens the interface for a tool that calls stations, from the address of the plan's controller, or without a plan from that of the interface. */
static void open_caller(struct controller *controller, const struct options *options, struct caller *caller)
{
    struct wire *wire = &controller->loop.wire;
    memset(caller, 0, sizeof *caller);
    if (options->plan_count == 1)
        open_relations(controller, options);
    wire_open(wire, options->shared.interface);
    if (options->plan_count == 1) {
        caller->tool = tool_of(&controller->relations[0].plan);
        caller->has_address = 1;
        caller->services = open_services(controller);
        wire_take(wire, caller->tool.mac);
    } else {
        caller_take_address(caller, wire);
    }
    say_link(wire);
}

/* Lists the stations, and ends. */
static _Noreturn void list(struct controller *controller, const struct options *options)
{
    struct caller caller;
    open_caller(controller, options, &caller);
    if (listing_print(&caller, &controller->loop.wire, options->is_json) == 0)
        fail(STATUS_NO_INPUT, "no station answers on %s", options->shared.interface);
    if (!caller.has_address)
        say("the ports of the stations were not read: %s has no IP address, and no plan gives one (%s IFACE PLAN.json --list)", options->shared.interface,
            say_name());
    exit(0);
}

/* Prints a record of a station, and ends. */
static _Noreturn void read_one(struct controller *controller, const struct options *options)
{
    struct reading_station station = {.word = options->from};
    struct caller caller;
    open_caller(controller, options, &caller);
    if (!caller.has_address)
        fail(STATUS_USAGE, "%s has no IP address for the call, and no plan gives one (%s IFACE PLAN.json --read ..)", options->shared.interface, say_name());
    if (options->from == NULL) {
        const struct relation *relation = &controller->relations[0];
        station = (struct reading_station){.word = relation->station, .name = relation->plan.name, .name_length = relation->plan.name_length};
    } else if (strchr(options->from, ':') == NULL || !words_mac(options->from, station.mac)) {
        station.name = (const uint8_t *)options->from;
        station.name_length = strlen(options->from);
    }
    reading_print(&caller, &controller->loop.wire, &station, &options->access);
    exit(0);
}

static void open_signals(struct controller *controller, const struct options *options)
{
    signals_open(&controller->signals, controller->relations, controller->count, &options->signals);
    for (unsigned i = 0; i < controller->count; i++)
        controller->relations[i].signals = &controller->signals;
}

static void open_all(struct controller *controller, const struct options *options)
{
    open_relations(controller, options);
    if (options->has_signals)
        open_signals(controller, options);
    controller->pause = options->pause;
    controller->ends_with_input = options->ends_with_input;
    controller->loop.period = options->shared.period;
    controller->loop.apart = controller->count > 1 ? APART : 1;
    wire_open(&controller->loop.wire, options->shared.interface);
    wire_take(&controller->loop.wire, controller->relations[0].plan.controller_mac);
    wire_join_nearest(&controller->loop.wire);
    if (find_seen(controller) != NULL)
        wire_join_identify(&controller->loop.wire);
    if (options->has_assigned || options->place != NULL)
        say_link(&controller->loop.wire);
    if (options->has_assigned)
        assign(controller, options);
    if (options->place != NULL)
        replace(controller, options);
    loop_open(&controller->loop, &options->shared);
}

#define EVENTS .idle_most = IDLE_MOST, .look_each = STATUS_EACH, .is_over = is_over, .tick = tick, .due = due, .look = look_at_states, .take_frame = take_frame, \
               .statistics = statistics, .look_around = look_around

static const char *const signal_lines[] = {"set NAME VALUE          sets an output by its name",
                                           "get NAME                prints a signal; get * prints all",
                                           "names                   lists the signals, with direction, type and place", NULL};

static const char *const signal_words[] = {"set", "get", "names", "modules", NULL};

#define SIGNALS .take_line = take_signal, .more_help = signal_lines, .more_words = signal_words, .write = write_signals, .write_due = signals_wait

static const struct events events = {EVENTS, .commands = commands};
static const struct events events_of_several = {EVENTS, .commands = commands_of_several, .choose = choose, .try_names = try_names};
static const struct events events_with_signals = {EVENTS, SIGNALS, .commands = commands};
static const struct events events_of_several_with_signals = {EVENTS, SIGNALS, .commands = commands_of_several, .choose = choose, .try_names = try_names};

static const struct events *events_of(const struct controller *controller)
{
    int has_signals = controller->relations[0].signals != NULL;
    if (controller->count == 1)
        return has_signals ? &events_with_signals : &events;
    return has_signals ? &events_of_several_with_signals : &events_of_several;
}

static void warn_of_plan(struct relation *relation)
{
    warnings_of_plan(&relation->plan, &relation->loop->lines);
}

static void begin(struct controller *controller)
{
    for (unsigned i = 0; i < controller->count; i++)
        relation_make(&controller->relations[i], &controller->loop);
    loop_start(&controller->loop, events_of(controller), controller);
    tell_each(controller, lines_report, relation_introduce);
    look_at_kernel(controller);
    loop_tell_link(&controller->loop);
    for_each(controller, warn_of_plan);
    for_each(controller, relation_begin);
    look_at_states(controller);
}

/* The cause of the end; of several controllers the lowest of those that were not stopped, or 7 if all were. */
static int cause_of_end(const struct controller *controller)
{
    uint32_t cause = PN_STOPPED;
    for (unsigned i = 0; i < controller->count; i++) {
        uint32_t other = controller->relations[i].cause;
        if (other != PN_STOPPED && (cause == PN_STOPPED || other < cause))
            cause = other;
    }
    return (int)cause;
}

int main(int count, char *words[])
{
    static struct controller controller;
    static struct options options;
    streams_secure();
    say_as("nandutable-controller");
    read_words(&options, count, words);
    if (options.is_list)
        list(&controller, &options);
    if (options.is_read)
        read_one(&controller, &options);
    open_all(&controller, &options);
    begin(&controller);
    loop_run(&controller.loop);
    keep_status(&controller);
    lines_close(&controller.loop.lines);
    return cause_of_end(&controller);
}
