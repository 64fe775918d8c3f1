/* Plays a script (docs/SCRIPTS.md) through the header, and prints what `pnscript run` prints: the demo station over a chip in
 * memory. A `cut` tears the call that this host executes. A `fault` cannot be played, because a call that fails on the host's side
 * counts as lost power: status 5. */
#include "nandutable.h"
#include <ctype.h>
#include <stdio.h>
#include <stdlib.h>

#define LONGEST 65536

static pn_device device;
static pn_op op;
static uint8_t chip[2][PN_SECTOR_SIZE];
static int is_off, is_cut_armed;
static uint32_t waiting; /* units that passed, with which nothing is due, and that were not handed in yet */
static unsigned long cut_after;
static uint8_t cut_mask[8];
static char sent[4 * (2 * PN_FRAME_SIZE + 5)]; /* the output of one step */
static size_t sent_length;

/* The demo station of the scripts, without services: a script runs the device alone up to a line `services on`. */
static pn_station station = {
    .without_services = 1,
    .mac = {2, 0, 0, 0, 0, 1}, .vendor_id = 0x0123, .device_id = 0x0456, .instance = 1, .station_type_length = 7,
    .station_type = "pn-demo", .order_id = "                    ", .serial_number = "                ",
    .software_revision = {'V', 0, 0, 0}, .module_count = 3,
    .modules = {{.ident = 1, .slot = 0, .submodule_count = 3,
                 .submodules = {{.ident = 1, .subslot = 1}, {.ident = 2, .subslot = 0x8000}, {.ident = 3, .subslot = 0x8001}}},
                {.ident = 16, .slot = 1, .submodule_count = 1, .submodules = {{.ident = 16, .subslot = 1, .input = 2}}},
                {.ident = 32, .slot = 2, .submodule_count = 1, .submodules = {{.ident = 32, .subslot = 1, .output = 2}}}}};

/* What is plugged now. */
static pn_station now;

/* --- The chip --- */

/* Whether this call keeps power. */
static int has_power(void)
{
    if (!is_cut_armed || cut_after-- != 0)
        return 1;
    is_cut_armed = 0;
    return 0;
}

/* Writes the result of a call for one octet: all bits, or only those of the mask if power is lost. */
static void put(int power, uint8_t *octet, uint8_t value, size_t number)
{
    uint8_t mask = power ? 0xFF : cut_mask[number % 8];
    *octet = (uint8_t)((*octet & ~mask) | (value & mask));
}

static int program(void *context, uint32_t sector, uint32_t place, const uint8_t *octets, uint32_t length)
{
    int power = has_power();
    (void)context;
    for (uint32_t i = 0; i < length; i++)
        put(power, &chip[sector][place + i], chip[sector][place + i] & octets[i], i);
    return !power;
}

static int erase(void *context, uint32_t sector)
{
    int power = has_power();
    (void)context;
    for (uint32_t i = 0; i < PN_SECTOR_SIZE; i++)
        put(power, &chip[sector][i], 0xFF, i);
    return !power;
}

static int transmit(void *context, const uint8_t *octets, uint32_t length)
{
    (void)context;
    sent_length += (size_t)sprintf(sent + sent_length, "out ");
    for (uint32_t i = 0; i < length; i++)
        sent_length += (size_t)sprintf(sent + sent_length, "%02x", octets[i]);
    sent_length += (size_t)sprintf(sent + sent_length, "\n");
    return 0;
}

static const pn_host host = {NULL, program, erase, transmit};

/* --- Lines --- */

static void stop(const char *where, uint32_t answer)
{
    fprintf(stderr, "player: %s answers %u\n", where, (unsigned)answer);
    exit(70);
}

static void boot(void)
{
    uint32_t answer = pn_make(&device, &station);
    if (answer != PN_OK)
        stop("pn_make", answer);
    answer = pn_boot(&device, &op, chip[0], chip[1]);
    if (answer != PN_OK && answer != PN_FOREIGN)
        stop("pn_boot", answer);
    is_off = answer == PN_FOREIGN;
    waiting = 0;
    now = station;
    puts(is_off ? "boot foreign" : "boot ok");
}

/* Executes the work of a step. Returns whether there is still power. */
static int carry_out(void)
{
    uint32_t answer = pn_carry_out(&device, &op, &host);
    if (answer == PN_FLASH_FAULT) {
        is_off = 1;
        puts("power lost");
        return 0;
    }
    if (answer != PN_OK)
        stop("pn_carry_out", answer);
    fwrite(sent, 1, sent_length, stdout);
    sent_length = 0;
    return 1;
}

static void end_of(uint32_t answer)
{
    static const char *const notes[] = {"done", "not-mine", "fault", "filter", "old-call", "no-relation", "stale-cycle"};
    uint32_t note = op.note;
    if (answer == PN_REFUSED) {
        puts("note refused");
        return;
    }
    if (answer != PN_OK)
        stop("an event", answer);
    sent_length = 0;
    if (carry_out())
        printf("note %s\n", notes[note]);
}

static void tick(uint32_t units)
{
    static pn_op reading;
    uint32_t due;
    for (op.units = units; op.units != 0;) {
        uint32_t answer = pn_tick(&device, &op, op.units), left = op.units;
        if (answer != PN_OK)
            stop("pn_tick", answer);
        if ((answer = pn_due(&device, &reading, &due)) != PN_OK || due != op.due)
            stop("pn_due does not return what pn_tick says", answer);
        sent_length = 0;
        if (!carry_out())
            return;
        op.units = left;
    }
    puts("note done");
}

/* Units with which nothing is due wait for the next line: a frame is handed in with them. */
static void pass(uint32_t units)
{
    uint32_t due, answer = pn_due(&device, &op, &due);
    if (answer != PN_OK)
        stop("pn_due", answer);
    if (units < due - waiting) {
        waiting += units;
        puts("note done");
    } else {
        tick(waiting + units);
        waiting = 0;
    }
}

static void frame(const uint8_t *octets, size_t length)
{
    uint32_t answer = pn_frame_after(&device, &op, waiting, octets, length);
    if (answer == PN_OK && op.units != 0)
        stop("pn_frame_after leaves units", op.units);
    waiting = 0;
    end_of(answer);
}

/* Before any other line. */
static void settle(void)
{
    uint32_t answer = pn_tick(&device, &op, waiting);
    if (answer != PN_OK || op.units != 0 || op.work != PN_NOTHING)
        stop("units with which nothing is due bring something", answer);
    waiting = 0;
}

static void hex(const char *label, const uint8_t *octets, size_t length)
{
    printf("%s", label);
    for (size_t i = 0; i < length; i++)
        printf("%02x", octets[i]);
    puts("");
}

static void suite(const char *label, const pn_settings *s)
{
    printf("%s %u.%u.%u.%u %u.%u.%u.%u %u.%u.%u.%u\n", label, s->address[0], s->address[1], s->address[2], s->address[3], s->mask[0],
           s->mask[1], s->mask[2], s->mask[3], s->gateway[0], s->gateway[1], s->gateway[2], s->gateway[3]);
}

static void name(const char *label, const pn_settings *s)
{
    printf("%s %.*s\n", label, s->name_length == 0 ? 1 : (int)s->name_length, s->name_length == 0 ? "-" : (const char *)s->name);
}

static void show(void)
{
    static const char *const phases[] = {"none", "started", "awaiting", "exchanging"};
    pn_settings running, stored;
    uint32_t answer = pn_running(&device, &op, &running);
    if (answer == PN_OK)
        answer = pn_stored(&device, &op, &stored);
    if (answer != PN_OK)
        stop("settings", answer);
    name("name", &running);
    suite("ip", &running);
    name("stored-name", &stored);
    suite("stored-ip", &stored);
    hex("im1 ", running.im1, sizeof running.im1);
    hex("im2 ", running.im2, sizeof running.im2);
    hex("im3 ", running.im3, sizeof running.im3);
    hex("im4 ", running.im4, sizeof running.im4);
    if (pn_state(&device, &op) != PN_OK)
        stop("pn_state", 0);
    printf("phase %s\nlamp %u\n", phases[op.phase], (unsigned)op.lamp);
    for (uint32_t i = 0; i < now.module_count; i++)
        for (uint16_t k = 0; k < now.modules[i].submodule_count; k++) {
            const pn_submodule *submodule = &now.modules[i].submodules[k];
            char label[32];
            if (submodule->output == 0)
                continue;
            if (pn_output(&device, &op, now.modules[i].slot, submodule->subslot) != PN_OK)
                stop("pn_output", 0);
            snprintf(label, sizeof label, "output %u %u ", now.modules[i].slot, submodule->subslot);
            hex(label, op.octets, op.length);
        }
}

/* --- Modules that come and go --- */

/* The first module in this slot or in a later one. */
static uint32_t module_at(uint16_t slot)
{
    uint32_t at = 0;
    while (at < now.module_count && now.modules[at].slot < slot)
        at++;
    return at;
}

static void pull(uint16_t slot, uint16_t subslot)
{
    uint32_t answer = pn_pull(&device, &op, slot, subslot);
    pn_module *entry = &now.modules[module_at(slot)];
    uint16_t left = 0;
    for (uint16_t i = 0; answer == PN_OK && i < entry->submodule_count; i++)
        if (entry->submodules[i].subslot != subslot)
            entry->submodules[left++] = entry->submodules[i];
    if (answer == PN_OK)
        entry->submodule_count = left;
    end_of(answer);
}

static void pull_module(uint16_t slot)
{
    uint32_t answer = pn_pull_module(&device, &op, slot), at = module_at(slot);
    if (answer == PN_OK)
        memmove(&now.modules[at], &now.modules[at + 1], (--now.module_count - at) * sizeof now.modules[0]);
    end_of(answer);
}

static void plug(uint16_t slot, uint32_t ident, const pn_submodule *submodule)
{
    uint32_t answer = pn_plug(&device, &op, slot, ident, submodule), at = module_at(slot);
    pn_module *entry = &now.modules[at];
    uint16_t place = 0;
    if (answer == PN_OK && (at == now.module_count || entry->slot != slot)) {
        memmove(entry + 1, entry, (now.module_count++ - at) * sizeof *entry);
        memset(entry, 0, sizeof *entry);
        entry->slot = slot;
    }
    if (answer == PN_OK) {
        while (place < entry->submodule_count && entry->submodules[place].subslot < submodule->subslot)
            place++;
        memmove(&entry->submodules[place + 1], &entry->submodules[place], (size_t)(entry->submodule_count++ - place) * sizeof *submodule);
        entry->submodules[place] = *submodule;
    }
    end_of(answer);
}

/* How far each place of the relation is, slots and subslots ascending. */
static void expected(void)
{
    static const char *const words[] = {"good", "differs", "plugged", "told", "ended", "refused"};
    int64_t last = -1, next;
    uint32_t progress = 0;
    do {
        next = INT64_MAX;
        for (uint32_t i = 0; pn_expected(&device, &op, i) == PN_OK; i++) {
            int64_t here = (int64_t)op.slot << 16 | op.subslot;
            if (here > last && here < next) {
                next = here;
                progress = op.progress;
            }
        }
        if (next != INT64_MAX)
            printf("expected %u %u %s\n", (unsigned)(next >> 16), (unsigned)(next & 0xFFFF), words[progress]);
        else if (last < 0)
            puts("expected -");
        last = next;
    } while (next != INT64_MAX);
}

/* --- What the application decides --- */

static void provider(uint16_t slot, uint16_t subslot)
{
    uint8_t iops, data_status;
    uint32_t answer = pn_provider(&device, &op, slot, subslot, &iops, &data_status);
    if (answer == PN_OK)
        printf("provider %u %u %02x %s\n", slot, subslot, iops, (data_status & PN_PROVIDER_RUNS) != 0 ? "run" : "stop");
    else
        printf("provider %u %u -\n", slot, subslot);
}

static void due(void)
{
    uint32_t units, answer = pn_due(&device, &op, &units);
    if (answer != PN_OK)
        stop("pn_due", answer);
    printf("due %u\n", (unsigned)units);
}

/* --- Arguments --- */

/* Reads a decimal number of at most `most`, after one space; *at moves past it. */
static int number(const char **at, unsigned long most, unsigned long *value)
{
    const char *p = *at;
    if (*p++ != ' ' || !isdigit((unsigned char)*p))
        return 0;
    for (*value = 0; isdigit((unsigned char)*p); p++) {
        *value = *value * 10 + (unsigned long)(*p - '0');
        if (*value > most)
            return 0;
    }
    *at = p;
    return 1;
}

/* Reads octets in hex up to the end of the line, after one space. Returns their number; 0 if there are none. */
static size_t octets_of(const char *p, uint8_t *octets)
{
    size_t length = 0;
    if (*p++ != ' ')
        return 0;
    for (; *p != '\0'; p += 2) {
        char pair[3] = {p[0], p[1], '\0'};
        if (!isxdigit((unsigned char)p[0]) || !isxdigit((unsigned char)p[1]))
            return 0;
        octets[length++] = (uint8_t)strtoul(pair, NULL, 16);
    }
    return length;
}

static int begins(const char *line, const char *word)
{
    return strncmp(line, word, strlen(word)) == 0;
}

/* Whether the line ends with the one or the other word, after one space. `*is_first` is the first one. */
static int ends_with(const char *at, const char *one, const char *other, int *is_first)
{
    if (*at++ != ' ')
        return 0;
    *is_first = strcmp(at, one) == 0;
    return *is_first || strcmp(at, other) == 0;
}

/* Plays a line `plug`, from its numbers on. Returns 0, or 3 for an invalid line. */
static int play_plug(const char *at)
{
    unsigned long numbers[6], index, length;
    pn_submodule part = {0};
    for (int i = 0; i < 6; i++)
        if (!number(&at, i == 2 || i == 3 ? 4294967295ul : 65535, &numbers[i]))
            return 3;
    for (; *at != '\0' && part.parameter_count < PN_PARAMETERS; part.parameter_count++) {
        if (!number(&at, 65535, &index) || !number(&at, 65535, &length))
            return 3;
        part.parameters[part.parameter_count] = (pn_parameter){(uint16_t)index, (uint16_t)length};
    }
    if (*at != '\0')
        return 3;
    part.subslot = (uint16_t)numbers[1];
    part.ident = (uint32_t)numbers[3];
    part.input = (uint16_t)numbers[4];
    part.output = (uint16_t)numbers[5];
    plug((uint16_t)numbers[0], (uint32_t)numbers[2], &part);
    return 0;
}

/* Plays a line by which the application sets an option of the device, from its name on. Returns 0, or 3 for an invalid line. */
static int play_option(const char *at)
{
    unsigned long interval;
    int is_on;
    if (begins(at, " inputs-bad") && ends_with(at + 11, "on", "off", &is_on)) {
        station.inputs_begin_bad = (uint16_t)is_on;
    } else if (begins(at, " ready") && ends_with(at + 6, "on", "off", &is_on)) {
        station.ready_by_application = (uint16_t)is_on;
    } else if (begins(at, " interval")) {
        at += 9;
        if (!number(&at, 65536, &interval) || interval == 0 || *at != '\0')
            return 3;
        station.smallest_interval = (uint32_t)interval;
    } else {
        return 3;
    }
    return 0;
}

/* Plays a line that begins with a slot and a subslot, from these on. Returns 0, 3 for an invalid line, 5 for a line that cannot be played. */
static int play_place(const char *line, const char *at)
{
    unsigned long a, b, channel, error;
    int is_first;
    if (!number(&at, 65535, &a) || !number(&at, 65535, &b))
        return 3;
    if (begins(line, "status ")) {
        if (!ends_with(at, "good", "bad", &is_first))
            return 3;
        end_of(pn_status(&device, &op, (uint16_t)a, (uint16_t)b, is_first));
    } else if (begins(line, "diagnosis ")) {
        if (!number(&at, 65535, &channel) || !number(&at, 65535, &error) || !ends_with(at, "appears", "disappears", &is_first))
            return 3;
        end_of(pn_diagnosis(&device, &op, (uint16_t)a, (uint16_t)b, (uint16_t)channel, (uint16_t)error, is_first));
    } else if (*at != '\0') {
        return 3;
    } else if (begins(line, "pull ")) {
        pull((uint16_t)a, (uint16_t)b);
    } else if (begins(line, "ready ")) {
        end_of(pn_ready_at(&device, &op, (uint16_t)a, (uint16_t)b));
    } else if (begins(line, "provider ")) {
        provider((uint16_t)a, (uint16_t)b);
    } else {
        return begins(line, "fault ") ? 5 : 3;
    }
    return 0;
}

/* Plays a line of one word. Returns 0, or 3 for an invalid line. */
static int play_word(const char *line)
{
    if (strcmp(line, "show") == 0)
        show();
    else if (strcmp(line, "expected") == 0)
        expected();
    else if (strcmp(line, "due") == 0)
        due();
    else if (strcmp(line, "ready") == 0)
        end_of(pn_ready(&device, &op));
    else
        return 3;
    return 0;
}

/* Plays one line that is not empty. Returns 0, 3 for an invalid line, 5 for a line that cannot be played. */
static int play(const char *line)
{
    static uint8_t octets[LONGEST];
    unsigned long a, b;
    const char *at = strchr(line, ' ');
    size_t length;
    if (waiting != 0 && !begins(line, "tick ") && !begins(line, "elapse ") && !begins(line, "frame "))
        settle();
    if (begins(line, "option "))
        return play_option(at);
    if (strcmp(line, "restart") == 0) {
        boot();
    } else if (is_off) {
        puts("off");
    } else if (at == NULL) {
        return play_word(line);
    } else if (begins(line, "frame ")) {
        if ((length = octets_of(at, octets)) == 0)
            return 3;
        frame(octets, length);
    } else if (begins(line, "tick ") || begins(line, "elapse ")) {
        if (!number(&at, 1000000, &a) || a == 0 || *at != '\0')
            return 3;
        pass((uint32_t)a);
    } else if (begins(line, "input ") || begins(line, "alarm ")) {
        if (!number(&at, 65535, &a) || !number(&at, 65535, &b) || (length = octets_of(at, octets)) == 0)
            return 3;
        end_of((line[0] == 'i' ? pn_input : pn_alarm)(&device, &op, (uint16_t)a, (uint16_t)b, octets, length));
    } else if (begins(line, "cut ")) {
        if (!number(&at, 4294967295ul, &a) || (length = octets_of(at, octets)) == 0 || length > 8 || (length & (length - 1)) != 0)
            return 3;
        is_cut_armed = 1;
        cut_after = a;
        for (size_t i = 0; i < 8; i++)
            cut_mask[i] = octets[i % length];
    } else if (begins(line, "plug ")) {
        return play_plug(at);
    } else if (begins(line, "pull ") && number(&at, 65535, &a) && *at == '\0') {
        pull_module((uint16_t)a);
    } else {
        return play_place(line, strchr(line, ' '));
    }
    return 0;
}

int main(void)
{
    static char line[LONGEST + 3];
    memset(chip, 0xFF, sizeof chip);
    boot();
    for (unsigned long n = 1; fgets(line, sizeof line, stdin) != NULL; n++) {
        int status;
        line[strcspn(line, "\r\n")] = '\0';
        if (line[0] == '\0' || line[0] == '#')
            continue;
        if ((status = play(line)) != 0) {
            fflush(stdout);
            fprintf(stderr, "player: line %lu\n", n);
            return status;
        }
    }
    return 0;
}
