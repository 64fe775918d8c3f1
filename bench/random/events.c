/* Random events through the header of the device, for bench/random/run, which links this program with two builds of the library: both have to
 * answer alike. The numbers depend on SEED and on the answers alone.
 *
 *     events SEED EVENTS [FIRST LAST] < LINES
 *
 * LINES has the frames: `session` those of a start-up, `cyclic` the cyclic frame after the place of its counter, `ending` one that ends a relation and
 * comes seldom, the first of them a Release, and `frame` any other one, the first of them with the address of the station. After each thousand events, and at the end, it prints the hash of all answers, of all fields of the
 * operation after each call, and of the octets of all work; then what happened, as counts. With FIRST and LAST it prints each answer of these events. */
#include "nandutable.h"
#include <inttypes.h>
#include <stdio.h>
#include <stdlib.h>

/* Octets of the longest frame here, and how many frames and start-ups the lines may have. A start-up has at most four frames. */
#define MOST_OCTETS 1600
#define MOST_FRAMES 200
#define MOST_SESSIONS 100
#define OF_A_SESSION 4

struct frame {
    uint8_t octets[MOST_OCTETS];
    size_t length;
};

struct session {
    struct frame frames[OF_A_SESSION];
    unsigned count;
};

static pn_device device;
static pn_op op;
/* The sectors of the chip. */
static uint8_t chip[2][PN_SECTOR_SIZE];

static pn_station station = {
    .mac = {2, 0, 0, 0, 0, 1}, .vendor_id = 0x0123, .device_id = 0x0456, .instance = 1, .station_type_length = 7,
    .station_type = "pn-demo", .order_id = "                    ", .serial_number = "                ",
    .software_revision = {'V', 0, 0, 0}, .module_count = 3,
    .modules = {{.ident = 1, .slot = 0, .submodule_count = 3,
                 .submodules = {{.ident = 1, .subslot = 1}, {.ident = 2, .subslot = 0x8000}, {.ident = 3, .subslot = 0x8001}}},
                {.ident = 16, .slot = 1, .submodule_count = 1, .submodules = {{.ident = 16, .subslot = 1, .input = 2}}},
                {.ident = 32, .slot = 2, .submodule_count = 1, .submodules = {{.ident = 32, .subslot = 1, .output = 2}}}},
    .record_count = 2,
    .records = {{.slot = 1, .subslot = 1, .index = 16, .greatest_length = 200, .is_readable = 1, .is_writable = 1},
                {.slot = 2, .subslot = 1, .index = 17, .greatest_length = PN_RECORD_SIZE, .is_readable = 1}}};

static struct session sessions[MOST_SESSIONS];
static struct frame frames[MOST_FRAMES], endings[MOST_FRAMES], cyclic;
static unsigned session_count, frame_count, ending_count;
/* Where the counter is in the cyclic frame. */
static size_t counter_place;

/* --- Chance --- */

static uint64_t chance;

/* A number below this one. */
static uint32_t below(uint32_t count)
{
    chance = chance * 6364136223846793005u + 1442695040888963407u;
    return (uint32_t)((chance >> 33) % count);
}

static int one_in(uint32_t count)
{
    return below(count) == 0;
}

/* --- What is compared --- */

static uint64_t hash = 14695981039346656037u;
static int is_shown;

static struct {
    unsigned long answers, refused, sent, relations, states, exchanging, cyclic, quiet, alarms, confirmed, asked, commits, starts;
} count;

/* FNV-1a. */
static void mix(const void *from, size_t length)
{
    const uint8_t *octets = from;
    while (length-- > 0) {
        hash ^= *octets++;
        hash *= 1099511628211u;
    }
}

static void show_octets(const uint8_t *octets, size_t length)
{
    for (size_t i = 0; i < length; i++)
        printf("%02x", octets[i]);
    printf("\n");
}

/* A call has returned this. Where the octets of a piece of work lie is no part of what is compared. */
static uint32_t answered(uint32_t answer)
{
    op.data = NULL;
    mix(&answer, sizeof answer);
    mix(&op, sizeof op);
    count.answers++;
    count.refused += answer == PN_REFUSED;
    if (is_shown)
        printf("call %" PRIu32 ": %" PRIu32 ", note %" PRIu32 ", work %" PRIu32 ", more %" PRIu32 ", units %" PRIu32 ", due %" PRIu32 ", phase %" PRIu32
               ", confirmed %" PRIu32 ", reason %" PRIu32 ", length %" PRIu32 ", all %016" PRIx64 "\n",
               op.what, answer, op.note, op.work, op.more, op.units, op.due, op.phase, op.confirmed, op.reason, op.length, hash);
    return answer;
}

/* --- Alarms: what the controller sends for one of the device --- */

/* The ACK and the AlarmAck that are still to be sent. */
static struct frame waiting[8];
static unsigned waiting_count;
/* The next SendSeqNum of the controller, and the last one, of both priorities. */
static unsigned next_number[2], last_number[2];

static void put_number(uint8_t *octets, unsigned number)
{
    octets[0] = (uint8_t)(number >> 8);
    octets[1] = (uint8_t)number;
}

static unsigned number_in(const uint8_t *octets)
{
    return octets[0] * 256u + octets[1];
}

/* Both addresses, the tag, the FrameID and both endpoints of an answer to this alarm. */
static struct frame *answer_to(const uint8_t *alarm)
{
    struct frame *frame = &waiting[waiting_count++];
    memset(frame, 0, sizeof *frame);
    memcpy(frame->octets, station.mac, 6);
    memcpy(frame->octets + 6, alarm, 6);
    memcpy(frame->octets + 12, alarm + 12, 8);
    memcpy(frame->octets + 20, alarm + 22, 2);
    memcpy(frame->octets + 22, alarm + 20, 2);
    memcpy(frame->octets + 28, alarm + 26, 2);
    frame->length = 60;
    return frame;
}

/* A frame of the device was sent. An alarm of it is answered, later. */
static void hear(const uint8_t *octets, size_t length)
{
    unsigned is_low;
    uint8_t *answer;
    if (length < 58 || number_in(octets + 16) != 0x8892 || (octets[18] != 0xFC && octets[18] != 0xFE) || octets[19] != 1)
        return;
    if ((octets[24] & 15) != 1 || waiting_count + 2 > sizeof waiting / sizeof waiting[0])
        return;
    is_low = octets[18] == 0xFE;
    answer = answer_to(octets)->octets;
    answer[24] = 0x13, answer[25] = 1;
    put_number(answer + 26, last_number[is_low]);
    answer = answer_to(octets)->octets;
    answer[24] = 0x11, answer[25] = 0x11;
    put_number(answer + 26, next_number[is_low]);
    answer[31] = 22;
    put_number(answer + 32, is_low ? 0x8002 : 0x8001);
    answer[35] = 18, answer[36] = 1;
    memcpy(answer + 38, octets + 38, 10);
    memcpy(answer + 48, octets + 56, 2);
    last_number[is_low] = next_number[is_low];
    next_number[is_low] = (next_number[is_low] + 1) & 0x7FFF;
}

static void forget_alarms(void)
{
    waiting_count = 0;
    for (unsigned i = 0; i < 2; i++)
        next_number[i] = last_number[i] = 0xFFFF;
}

/* --- The host --- */

/* Fetches the next piece of work, and does it. Returns whether there was one. */
static int fetch(void)
{
    uint32_t answer = pn_next(&device, &op);
    const uint8_t *octets = op.data;
    if (answered(answer) != PN_OK || op.work == PN_NOTHING)
        return 0;
    if (op.work == PN_ERASE) {
        memset(chip[op.sector], 0xFF, PN_SECTOR_SIZE);
        return 1;
    }
    mix(octets, op.length);
    if (is_shown)
        show_octets(octets, op.length);
    if (op.work == PN_PROGRAM) {
        for (uint32_t i = 0; i < op.length; i++)
            chip[op.sector][op.place + i] &= octets[i];
        count.commits++;
    } else {
        count.sent++;
        hear(octets, op.length);
    }
    return 1;
}

/* Does all work, but now and then leaves it or the rest of it, so that the next event is refused. */
static void carry_out(uint32_t seldom)
{
    if (!one_in(seldom)) {
        while (fetch())
            ;
    } else if (one_in(2)) {
        fetch();
    }
}

static void carry_out_all(void)
{
    while (fetch())
        ;
}

static uint32_t hand_in(const struct frame *frame)
{
    uint32_t answer = answered(pn_frame(&device, &op, frame->octets, frame->length));
    count.confirmed += answer == PN_OK && op.confirmed == PN_ACKNOWLEDGED;
    return answer;
}

static void start(void)
{
    answered(pn_make(&device, &station));
    answered(pn_boot(&device, &op, chip[0], chip[1]));
    carry_out_all();
    hand_in(&frames[0]);
    carry_out_all();
    forget_alarms();
    count.starts++;
}

/* --- Calls and start-ups --- */

/* The number of the last call. Those in the lines have smaller ones: a call as it is in the lines is an old one. */
static unsigned sequence = 2000;

static int is_call(const struct frame *frame)
{
    const uint8_t *octets = frame->octets;
    return frame->length > 122 && number_in(octets + 12) == 0x0800 && octets[23] == 17 && number_in(octets + 36) == 34964 && octets[42] == 4 && octets[43] == 0;
}

/* Gives a call the next sequence number. Its checksum follows (RFC 1624). */
static void renew(struct frame *call)
{
    uint8_t *place = call->octets + 108, *sum = call->octets + 40;
    unsigned total = (~number_in(sum) & 0xFFFF) + (~number_in(place) & 0xFFFF);
    sequence = (sequence + 1) & 0xFFFF;
    total += sequence;
    while (total > 0xFFFF)
        total = (total & 0xFFFF) + (total >> 16);
    put_number(place, sequence);
    put_number(sum, ~total & 0xFFFF);
}

static uint32_t pass(uint32_t units)
{
    uint32_t answer = answered(pn_tick(&device, &op, units));
    count.quiet += answer == PN_OK && op.work == PN_NOTHING;
    return answer;
}

static unsigned cycle;

static int is_exchanging(void)
{
    answered(pn_state(&device, &op));
    count.states++;
    count.exchanging += op.phase == PN_EXCHANGING;
    return op.phase == PN_EXCHANGING;
}

static void hand_in_call(const struct frame *frame)
{
    struct frame call = *frame;
    if (is_call(&call))
        renew(&call);
    hand_in(&call);
    carry_out_all();
}

/* A start-up, mostly after the Release of a relation that did not come to an exchange, and now and then after a Set of the address, which a reset
 * may have cleared. A frame of it may be missing. Units of time pass between its frames, and then an input comes. */
static void begin(void)
{
    const struct session *session = &sessions[below(session_count)];
    uint8_t value[2] = {(uint8_t)below(256), (uint8_t)below(256)};
    if (op.phase != PN_NONE && !one_in(4))
        hand_in_call(&endings[0]);
    if (one_in(4))
        hand_in_call(&frames[0]);
    forget_alarms();
    for (unsigned i = 0; i < session->count; i++) {
        if (one_in(30))
            continue;
        hand_in_call(&session->frames[i]);
        if (i == 1 && one_in(2)) {
            answered(pn_ready(&device, &op));
            carry_out_all();
        }
        if (one_in(4)) {
            pass(1 + below(40));
            carry_out_all();
        }
    }
    answered(pn_input(&device, &op, 1, 1, value, sizeof value));
    carry_out_all();
    count.relations += is_exchanging();
    cycle = below(65536);
}

/* --- Events --- */

/* Makes another frame of a cyclic one. */
static void bend(struct frame *frame)
{
    uint8_t *counter = frame->octets + counter_place;
    switch (below(14)) {
    case 0: frame->octets[below(24)] ^= (uint8_t)(1u << below(8)); break;
    case 1: counter[2] ^= (uint8_t)(1u << below(8)); break;
    case 2: /* without its tag */
        memmove(frame->octets + 12, frame->octets + 16, frame->length - 16);
        frame->length -= 4;
        break;
    case 3: frame->length = below((uint32_t)frame->length + 1); break;
    case 4: frame->length = 1500 + below(60); break;
    case 5: counter[3] = 1; break;
    case 6: cycle -= below(70000); break;
    default: break;
    }
}

static void hear_cyclic(void)
{
    struct frame frame = cyclic;
    uint32_t answer;
    cycle += 1 + below(60);
    frame.octets[20] = (uint8_t)below(256);
    frame.octets[21] = (uint8_t)below(256);
    put_number(frame.octets + counter_place, cycle & 0xFFFF);
    bend(&frame);
    if (one_in(3))
        answer = answered(pn_frame_after(&device, &op, one_in(3) ? below(700) : below(40), frame.octets, frame.length));
    else
        answer = hand_in(&frame);
    count.cyclic += answer == PN_OK && op.note == PN_DONE;
    carry_out(20);
}

/* Units of time pass. Those that remain after a unit that sends are handed in again, mostly, as a host does, but not more often than this. */
#define MOST_TURNS 60

static void time_passes(void)
{
    uint32_t kind = below(10), units = kind < 3 ? 1 : kind < 6 ? below(8) : kind < 9 ? below(70) : below(3000);
    unsigned turns = one_in(4) ? 1 : MOST_TURNS;
    while (turns-- > 0 && pass(units) == PN_OK && op.units > 0) {
        units = op.units;
        carry_out(200);
    }
    carry_out(12);
}

static void give(void)
{
    uint8_t value[4] = {(uint8_t)below(256), (uint8_t)below(256), (uint8_t)below(256), (uint8_t)below(256)};
    uint16_t slot = (uint16_t)(one_in(8) ? below(4) : 1), subslot = (uint16_t)(one_in(8) ? below(3) : 1);
    answered(pn_input(&device, &op, slot, subslot, value, one_in(8) ? below(5) : 2));
    carry_out(20);
}

/* The host reads something. */
static void look(void)
{
    static pn_settings settings;
    uint16_t slot = (uint16_t)(one_in(5) ? below(4) : 2);
    uint32_t number;
    uint8_t iops, data_status;
    switch (below(9)) {
    case 0: answered(pn_output(&device, &op, slot, 1)); break;
    case 1: answered(pn_received(&device, &op, slot, 1, &iops, &data_status)); break;
    case 2: answered(pn_provider(&device, &op, slot, 1, &iops, &data_status)); break;
    case 3: answered(pn_due(&device, &op, &number)); break;
    case 4: answered(pn_state(&device, &op)); break;
    case 5: answered(pn_conflicts(&device, &op, &number)); break;
    case 6: answered(pn_running(&device, &op, &settings)); break;
    case 7: answered(pn_expected(&device, &op, below(6))); break;
    default: answered(pn_taken(&device, &op, below(3))); break;
    }
}

static void hear_any(void)
{
    struct frame frame = one_in(20) ? endings[below(ending_count)] : frames[below(frame_count)];
    if (is_call(&frame) && !one_in(3))
        renew(&frame);
    if (one_in(15))
        frame.octets[below((uint32_t)frame.length)] ^= (uint8_t)(1u << below(8));
    hand_in(&frame);
    carry_out(20);
}

static void plug(void)
{
    int is_output = one_in(2);
    pn_submodule submodule = {.ident = is_output ? 32 : 16, .subslot = 1, .input = is_output ? 0 : 2, .output = is_output ? 2 : 0};
    answered(pn_plug(&device, &op, is_output ? 2 : 1, submodule.ident, &submodule));
}

/* What is asked of the application is answered, in one of three ways, or not yet. */
static void answer_record(void)
{
    static const uint8_t octets[200];
    uint32_t number;
    if (answered(pn_asked(&device, &op)) != PN_OK)
        return;
    count.asked++;
    number = op.number;
    switch (below(4)) {
    case 0: answered(pn_answer(&device, &op, number, octets, below(201))); break;
    case 1: answered(pn_written(&device, &op, number)); break;
    case 2: answered(pn_refuse(&device, &op, number, (uint8_t)(0xA0 + below(17)), 1)); break;
    default: break;
    }
}

/* Power fails, perhaps before all work is done, and the device starts again from the chip. */
static void lose_power(void)
{
    answered(pn_lose(&device, &op));
    pass(1);
    look();
    start();
}

/* What the application says, or what happens seldom. */
static void say(void)
{
    uint16_t slot = (uint16_t)(1 + below(2));
    uint8_t octets[8] = {1, 2, 3};
    switch (below(10)) {
    case 0: count.alarms += answered(pn_alarm(&device, &op, slot, 1, octets, 3)) == PN_OK; break;
    case 1: answered(pn_status(&device, &op, slot, 1, !one_in(3))); break;
    case 2: answered(pn_diagnosis(&device, &op, slot, 1, (uint16_t)(one_in(2) ? 0x8000 : below(4)), (uint16_t)(1 + below(3)), one_in(2))); break;
    case 3: answered(pn_provider_state(&device, &op, !one_in(4))); break;
    case 4: answered(one_in(5) ? pn_pull_module(&device, &op, slot) : pn_pull(&device, &op, slot, 1)); break;
    case 5: case 6: plug(); break;
    case 7: answered(one_in(4) ? pn_ready(&device, &op) : pn_ready_at(&device, &op, slot, 1)); break;
    case 8: answered(pn_tell_link(&device, &op, one_in(2), NULL)); break;
    default: answer_record(); break;
    }
    if (one_in(40))
        lose_power();
    carry_out(40);
}

/* An answer of the controller to an alarm comes, or is lost. */
static void acknowledge(void)
{
    struct frame frame = waiting[0];
    memmove(waiting, waiting + 1, sizeof waiting - sizeof waiting[0]);
    waiting_count--;
    if (!one_in(20))
        hand_in(&frame);
    carry_out_all();
}

/* What a run has much or little of: of a thousand events that many cyclic frames, frames of others, and words of the application; and in how many events
 * the controller answers an alarm once. */
static struct {
    uint32_t cyclic, others, said, answering;
} mood;

static void choose_mood(void)
{
    mood.cyclic = one_in(4) ? 30 : 330;
    mood.others = one_in(2) ? 8 : 150;
    mood.said = one_in(3) ? 4 : 60;
    mood.answering = one_in(2) ? 100 : 6;
}

/* One event. */
static void happen(void)
{
    if (waiting_count > 0 && one_in(mood.answering))
        acknowledge();
    if (one_in(37))
        is_exchanging();
    if (op.phase != PN_EXCHANGING && one_in(20))
        begin();
    else if (below(1000) < mood.cyclic)
        hear_cyclic();
    else if (below(1000) < mood.others)
        hear_any();
    else if (below(1000) < mood.said)
        say();
    else if (!one_in(4))
        time_passes();
    else if (one_in(2))
        give();
    else
        look();
}

/* --- The lines --- */

static size_t read_hex(const char *text, uint8_t *octets)
{
    size_t length = 0;
    unsigned octet;
    for (; length < MOST_OCTETS && sscanf(text, "%2x", &octet) == 1; text += 2)
        octets[length++] = (uint8_t)octet;
    return length;
}

static void must(int is_so, const char *what)
{
    if (is_so)
        return;
    fprintf(stderr, "events: %s\n", what);
    exit(1);
}

static void read_lines(void)
{
    static char text[4 * 2 * MOST_OCTETS + 100];
    while (fgets(text, sizeof text, stdin) != NULL) {
        char *word = strtok(text, " \n");
        must(word != NULL, "an empty line");
        if (strcmp(word, "session") == 0) {
            struct session *session = &sessions[session_count++];
            must(session_count <= MOST_SESSIONS, "too many start-ups");
            for (word = strtok(NULL, " \n"); word != NULL; word = strtok(NULL, " \n")) {
                must(session->count < OF_A_SESSION, "a start-up with too many frames");
                session->frames[session->count].length = read_hex(word, session->frames[session->count].octets);
                session->count++;
            }
        } else if (strcmp(word, "cyclic") == 0) {
            counter_place = strtoul(strtok(NULL, " \n"), NULL, 10);
            cyclic.length = read_hex(strtok(NULL, " \n"), cyclic.octets);
        } else {
            int is_ending = strcmp(word, "ending") == 0;
            unsigned *counted = is_ending ? &ending_count : &frame_count;
            struct frame *frame = (is_ending ? endings : frames) + *counted;
            must(++*counted <= MOST_FRAMES, "too many frames");
            frame->length = read_hex(strtok(NULL, " \n"), frame->octets);
        }
    }
    must(session_count > 0 && frame_count > 0 && ending_count > 0 && cyclic.length > counter_place + 3, "the lines lack a start-up or a frame");
}

/* The options of a station: each in one of eight runs, and services in every second one. */
static void choose_options(void)
{
    station.without_services = one_in(2);
    station.inputs_begin_bad = one_in(8);
    station.ready_by_application = one_in(8);
    station.only_own_controller = one_in(8);
    station.records_passed_on = one_in(8);
    station.numbers_go_round = one_in(8);
    station.reads_not_kept = one_in(8);
    station.asks_own_first = one_in(8);
}

int main(int words, char **word)
{
    unsigned long events, first, last;
    must(words == 3 || words == 5, "events SEED EVENTS [FIRST LAST]");
    chance = strtoull(word[1], NULL, 10) * 7919 + 17;
    events = strtoul(word[2], NULL, 10);
    first = words == 5 ? strtoul(word[3], NULL, 10) : events;
    last = words == 5 ? strtoul(word[4], NULL, 10) : events;
    read_lines();
    memset(chip, 0xFF, sizeof chip);
    choose_options();
    choose_mood();
    start();
    for (unsigned long i = 0; i < events; i++) {
        is_shown = i >= first && i < last;
        if (is_shown)
            printf("event %lu\n", i);
        happen();
        if (i % 1000 == 999 || i + 1 == events)
            printf("%lu events: %016" PRIx64 "\n", i + 1, hash);
    }
    printf("answers %lu, refused %lu, frames sent %lu, relations %lu, states read %lu, of these exchanging %lu, cyclic frames accepted %lu, quiet ticks %lu, "
           "alarms %lu, of these acknowledged %lu, records asked %lu, flash programs %lu, starts %lu\n",
           count.answers, count.refused, count.sent, count.relations, count.states, count.exchanging, count.cyclic, count.quiet, count.alarms, count.confirmed,
           count.asked, count.commits, count.starts);
    return 0;
}
