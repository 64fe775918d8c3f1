/* The driver of the NOR over a model of its two chips, and a device over both: nor_test [SEEDS]. Faults that the chips report, calls that do not end
 * in time, bits that are stuck, and power that is cut in each cycle of the bus with torn words and torn erases. After each of them a start finds
 * the settings that were answered, or those of the one command after them. */
#include "chip.h"
#include "console.h"
#include "nandutable.h"
#include "nor.h"
#include "nor_bus.h"
#include "nor_model.h"
#include <stdio.h>
#include <stdlib.h>
#include <string.h>

#ifndef NOR_PROGRAMS_FIRST
#define NOR_PROGRAMS_FIRST 0
#endif

static uint64_t seed = 1;
static unsigned long cases;

static uint32_t drawn(uint32_t below)
{
    seed = seed * 6364136223846793005u + 1442695040888963407u;
    return (uint32_t)(seed >> 33) % below;
}

static void must(int is_so, const char *what)
{
    if (is_so)
        return;
    printf("nor_test: %s\n", what);
    exit(1);
}

static void is(enum nor_fault found, enum nor_fault wanted, const char *what)
{
    if (found != wanted)
        printf("nor_test: '%s' and not '%s'\n", nor_text(found), nor_text(wanted));
    must(found == wanted, what);
    cases++;
}

/* What chip.c says goes nowhere. */
void console_say(const char *text)
{
    (void)text;
}

/* --- The driver alone --- */

static struct nor_shape shape;
static uint8_t wanted[MODEL_SIZE], octets[MODEL_BLOCK];

static void begin(void)
{
    model_make();
    is(nor_start(&shape), NOR_OK, "a start");
    for (uint32_t place = 0; place < MODEL_SIZE; place += MODEL_BLOCK)
        is(nor_unlock(&shape, place), NOR_OK, "an unlock");
}

static void is_as_wanted(void)
{
    for (uint32_t place = 0; place < MODEL_SIZE; place++)
        must(model_octet(place) == wanted[place], "the chips hold something else than what was asked");
}

static void random_call(void)
{
    uint32_t block = drawn(8) * MODEL_BLOCK, place = drawn(MODEL_BLOCK), length = drawn(drawn(2) == 0 ? 9 : 600);
    if (length > MODEL_BLOCK - place)
        length = MODEL_BLOCK - place;
    if (drawn(6) == 0) {
        is(nor_erase(&shape, block, MODEL_BLOCK), NOR_OK, "an erase");
        memset(wanted + block, 0xFF, MODEL_BLOCK);
        return;
    }
    for (uint32_t i = 0; i < length; i++) {
        octets[i] = (uint8_t)drawn(256);
        wanted[block + place + i] &= octets[i];
    }
    is(nor_program(&shape, block + place, octets, length), NOR_OK, "a program call");
}

static void calls(void)
{
    begin();
    must(shape.size == MODEL_SIZE && shape.block == MODEL_BLOCK, "the shape");
    memset(wanted, 0xFF, sizeof wanted);
    for (int i = 0; i < 500; i++) {
        random_call();
        is_as_wanted();
        is(nor_read(&shape, MODEL_BLOCK, octets, MODEL_BLOCK), NOR_OK, "a read");
        must(memcmp(octets, wanted + MODEL_BLOCK, MODEL_BLOCK) == 0, "the octets that were read");
    }
    is(nor_program(&shape, MODEL_BLOCK - 1, octets, 2), NOR_BEYOND, "a call beyond a block");
    is(nor_program(&shape, MODEL_SIZE, octets, 1), NOR_BEYOND, "a call beyond the flash");
    is(nor_read(&shape, 4, octets, UINT32_MAX), NOR_BEYOND, "a read beyond a block");
    is(nor_erase(&shape, 4, 4), NOR_BEYOND, "an erase in the middle of a block");
    is_as_wanted();
}

/* A program of words, of a buffer, and an erase. */
static enum nor_fault call_of(unsigned which)
{
    static const uint8_t zeros[40];
    return which == 2 ? nor_erase(&shape, 0, MODEL_BLOCK) : nor_program(&shape, 64, zeros, which == 0 ? 4 : sizeof zeros);
}

/* Each bit of the status, of either chip and of both. */
static void statuses(void)
{
    static const struct {
        uint8_t bits;
        enum nor_fault fault;
    } rows[] = {{0x20, NOR_ERASE}, {0x10, NOR_PROGRAM}, {0x30, NOR_SEQUENCE}, {0x08, NOR_LOW_VOLTAGE}, {0x18, NOR_LOW_VOLTAGE},
                {0x02, NOR_LOCKED}, {0x12, NOR_LOCKED}, {0x40, NOR_SEQUENCE}, {0x04, NOR_SEQUENCE}};
    for (unsigned row = 0; row < sizeof rows / sizeof rows[0]; row++)
        for (unsigned chips = 1; chips <= 3; chips++)
            for (unsigned which = 0; which < 3; which++) {
                const struct model_trouble trouble = {.chips = chips, .status = rows[row].bits};
                begin();
                model_order(&trouble);
                is(call_of(which), rows[row].fault, "a status");
                model_order(NULL);
                is(nor_read(&shape, 64, octets, 4), NOR_OK, "a read after a fault");
                must(octets[chips == 2 ? 2 : 0] == 0xFF, "a call that was refused");
                is(call_of(which), NOR_OK, "the call after a fault");
            }
}

/* A chip that is late, and one that never ends: nobody reads from it while it may change. */
static void timeouts(void)
{
    for (unsigned chips = 1; chips <= 3; chips++)
        for (unsigned which = 0; which < 3; which++) {
            struct model_trouble trouble = {.chips = chips, .late = 80000, .done = 1};
            begin();
            model_order(&trouble);
            is(call_of(which), NOR_TIMEOUT, "a chip that is late");
            is(nor_read(&shape, 64, octets, 4), NOR_OK, "a read after it");
            must(octets[0] == (which == 2 ? 0xFF : 0) && octets[2] == octets[0], "the read waits for its end");
            trouble.late = UINT32_MAX;
            begin();
            model_order(&trouble);
            is(call_of(which), NOR_TIMEOUT, "a chip that never ends");
            is(nor_read(&shape, 64, octets, 4), NOR_TIMEOUT, "a read after it");
            is(nor_start(&shape), NOR_TIMEOUT, "a start after it");
            model_order(NULL);
            model_restart(TORN_SOME, chips);
            is(nor_start(&shape), NOR_OK, "a start with power off and on");
        }
}

static void stuck(void)
{
    begin();
    model_stick(66, 0x10);
    is(call_of(0), NOR_DIFFERS, "a bit that stays 1");
    begin();
    model_set(4095, 0x7F);
    model_stick(4095, 0x80);
    is(nor_erase(&shape, 0, MODEL_BLOCK), NOR_DIFFERS, "a bit that stays 0");
    begin();
    model_restart(TORN_NONE, 1);
    nor_bus_write(0, 0x00200020); /* an erase that was not confirmed */
    is(nor_start(&shape), NOR_OK, "a start");
    is(call_of(0), NOR_LOCKED, "a block that nobody unlocked");
    is(call_of(2), NOR_OK, "the call after it: the driver unlocked it");
}

static void others(void)
{
    for (unsigned chip = 0; chip < 2; chip++) {
        model_make();
        model_be(chip, 0xFF);
        is(nor_start(&shape), NOR_NO_CHIP, "another chip");
    }
}

/* Stops in one cycle of a call. Returns whether the call was longer. */
static __attribute__((noinline)) int stops_in(unsigned which, uint32_t cycles)
{
    model_cut(cycles);
    if (setjmp(model_off) != 0)
        return 1;
    is(call_of(which), NOR_OK, "a whole call");
    return 0;
}

/* Only the processor is reset, in each cycle of a call: the chips still wait for the rest of a command. Nothing changes by the start. */
static void half_given(unsigned which)
{
    for (uint32_t cycles = 1;; cycles++) {
        begin();
        if (!stops_in(which, cycles))
            break;
        model_cut_never();
        is(nor_start(&shape), NOR_OK, "a start in the middle of a command");
        for (uint32_t place = 0; place < MODEL_SIZE; place++)
            must(model_octet(place) == 0xFF || (which != 2 && place >= 64 && place < 104), "an octet that nobody programmed");
        is(nor_unlock(&shape, 0), NOR_OK, "an unlock after it");
        is(call_of(which), NOR_OK, "the call once more");
    }
}

/* --- A device on it --- */

static const pn_station station = {.mac = {2, 0, 0, 0, 0, 1}, .vendor_id = 1, .device_id = 2, .instance = 1, .order_id = "nor-test            ",
                                   .serial_number = "1               ", .software_revision = {'V', 1, 0, 0}, .module_count = 1,
                                   .modules = {{.ident = 1, .submodule_count = 1, .submodules = {{.ident = 1, .subslot = 1}}}}};
static pn_device device;
static pn_op op;
static unsigned sent;
static int has_failed;

static int program(void *context, uint32_t sector, uint32_t place, const uint8_t *data, uint32_t length)
{
    (void)context;
    return has_failed = chip_program(sector, place, data, length);
}

static int erase(void *context, uint32_t sector)
{
    (void)context;
    return has_failed = chip_erase(sector);
}

static int transmit(void *context, const uint8_t *data, uint32_t length)
{
    (void)context, (void)data, (void)length;
    must(!has_failed, "a frame after a call that failed");
    sent++;
    return 0;
}

static const pn_host host = {NULL, program, erase, transmit};

/* Returns 0, 1 if the chip cannot be read, or 2 if the device refuses what it contains. */
static int boot(void)
{
    static uint8_t sectors[2][PN_SECTOR_SIZE];
    if (chip_read(0, sectors[0]) != 0 || chip_read(1, sectors[1]) != 0)
        return 1;
    must(pn_make(&device, &station) == PN_OK, "pn_make");
    has_failed = 0;
    return pn_boot(&device, &op, sectors[0], sectors[1]) == PN_OK ? 0 : 2;
}

/* The n-th name, of 4 to 60 octets; before the first one the device has no name. */
static uint32_t name_of(uint32_t number, uint8_t *name)
{
    if (number == 0)
        return 0;
    memset(name, 'a' + (int)(number % 26), 60);
    name[0] = (uint8_t)('a' + number / 26 % 26);
    return 4 + number * 7 % 57;
}

static int has_name(uint32_t number)
{
    uint8_t name[60];
    uint32_t length = name_of(number, name);
    pn_settings found;
    must(pn_running(&device, &op, &found) == PN_OK, "pn_running");
    return found.name_length == length && memcmp(found.name, name, length) == 0;
}

/* A Set of the n-th name. Returns 1 if it was answered, 0 if a call of the flash failed. */
static int set_name(uint32_t number)
{
    static const uint8_t head[22] = {2, 0, 0, 0, 0, 1, 2, 0, 0, 0, 0, 2, 0x88, 0x92, 0xFE, 0xFD, 4, 0, 0, 0, 0, 1};
    uint8_t frame[128] = {0};
    uint32_t length = name_of(number, frame + 32), answer;
    memcpy(frame, head, sizeof head);
    frame[25] = (uint8_t)(6 + length + length % 2);
    frame[26] = frame[27] = 2;
    frame[29] = (uint8_t)(2 + length);
    frame[31] = 1;
    memset(frame + 32 + length, 0, sizeof frame - 32 - length);
    sent = 0;
    must(pn_frame(&device, &op, frame, 32 + length + length % 2 < 60 ? 60 : 32 + length + length % 2) == PN_OK && op.note == PN_DONE, "pn_frame");
    answer = pn_carry_out(&device, &op, &host);
    must(answer == (has_failed ? PN_FLASH_FAULT : PN_OK) && sent == !has_failed, "the answer to a Set");
    return !has_failed;
}

/* The model and the number of the last name. */
static void *kept, *after;
#define SETS 40u
static unsigned long olds, news, wrong;

/* What a start finds after the n-th Set was not answered: the name before it, or its own. The device goes on with the next name. */
static void judge(uint32_t number)
{
    int is_old = has_name(number - 1), is_new = has_name(number);
    cases++;
    olds += (unsigned long)is_old;
    news += (unsigned long)is_new;
    must(is_old || is_new, "neither the settings that were answered nor those after them");
    if (drawn(8) != 0)
        return;
    must(set_name(number + 1) == 1 && chip_start() == 0 && boot() == 0 && has_name(number + 1), "the next Set");
}

/* Cuts the power in one cycle of the n-th Set. */
static void cut(uint32_t number, uint32_t cycles, enum model_torn torn)
{
    model_return(kept);
    must(chip_start() == 0 && boot() == 0, "a start");
    model_cut(cycles);
    if (setjmp(model_off) == 0) {
        set_name(number);
        must(0, "power was not cut");
    }
    must(sent == 0, "an answer before its calls were done");
    model_restart(torn, seed + cycles);
}

/* Goes through all Sets: before each of them the chips are kept, and `each` gets how many cycles and operations it has. */
static void through_sets(void (*each)(uint32_t number, uint32_t cycles, uint32_t operations))
{
    model_make();
    must(chip_start() == 0 && boot() == 0, "the first start");
    for (uint32_t number = 1; number <= SETS; number++) {
        uint32_t cycles;
        model_keep(kept);
        must(chip_start() == 0 && boot() == 0, "a start");
        model_order(NULL);
        cycles = model_cycles();
        must(set_name(number) == 1, "a Set");
        cycles = model_cycles() - cycles;
        model_keep(after);
        each(number, cycles, model_operations());
        model_return(after);
    }
}

static unsigned long seeds = 1;

static void cut_everywhere(uint32_t number, uint32_t cycles, uint32_t operations)
{
    (void)operations;
    for (uint32_t at = 0; at < cycles; at++)
        for (unsigned kind = 0; kind < TORN_KINDS; kind++)
            for (unsigned long again = 0; again < (kind < TORN_SOME ? 1 : seeds); again++) {
                (void)drawn(2);
                cut(number, at, (enum model_torn)kind);
                must(chip_start() == 0 && boot() == 0, "a start after a cut");
                judge(number);
            }
}

/* Cuts an erase of chips that first turn all bits to 0. Without the remedy of chip.c a start may find other settings, or refuse the chip. A blank sector is
 * erased only before the first Set; that one is left out: there the chip may then be refused as foreign. */
static void cut_in_erases(uint32_t number, uint32_t cycles, uint32_t operations)
{
    (void)operations;
    if (cycles < 300 || number == 1)
        return;
    for (uint32_t at = 0; at < cycles; at++)
        for (unsigned again = 0; again < 2; again++) {
            (void)drawn(2);
            model_programs_first(1);
            cut(number, at, TORN_SOME);
            model_programs_first(0);
            must(chip_start() == 0, "a start after a cut");
            if (boot() != 0 || !(has_name(number - 1) || has_name(number)))
                wrong++;
            else
                judge(number);
        }
}

/* What was found. */
static void report(const char *what)
{
    printf("%s: new %lu, old %lu, wrong %lu\n", what, news, olds, wrong);
    fflush(stdout);
    olds = news = wrong = 0;
}

/* One operation of the n-th Set has a trouble. The device is silent until a start, which finds the old name or the new one. */
static void one_trouble(uint32_t number, const struct model_trouble *trouble)
{
    uint32_t left;
    int is_over;
    model_return(kept);
    must(chip_start() == 0 && boot() == 0, "a start");
    model_order(trouble);
    must(set_name(number) == 0, "a Set with trouble was answered");
    must(pn_left(&device, &op, &left) == PN_LOST && pn_tick(&device, &op, 1) == PN_LOST && pn_next(&device, &op) == PN_LOST, "a device without power");
    model_order(NULL);
    is_over = boot() == 0;
    must(is_over == (trouble->late != UINT32_MAX), "a start while a chip is busy");
    if (!is_over) {
        model_restart(TORN_SOME, seed);
        must(chip_start() == 0 && boot() == 0, "a start with power off and on");
    }
    judge(number);
}

static void trouble_everywhere(uint32_t number, uint32_t cycles, uint32_t operations)
{
    static const uint8_t bits[] = {0x20, 0x10, 0x30, 0x08, 0x02, 0x40, 0x04};
    (void)cycles;
    /* Of a Set with many of them some. */
    for (uint32_t at = 0; at < operations; at += 1 + operations / 24)
        for (unsigned chips = 1; chips <= 3; chips++)
            for (unsigned done = 0; done < 3; done++) {
                struct model_trouble trouble = {.at = at, .chips = chips, .done = done};
                for (unsigned row = 0; row < sizeof bits; row++) {
                    trouble.status = bits[row];
                    one_trouble(number, &trouble);
                }
                trouble.status = 0;
                trouble.late = 80000;
                one_trouble(number, &trouble);
                trouble.late = UINT32_MAX;
                one_trouble(number, &trouble);
            }
}

/* Places that the n-th Set changes, and a bit of each that changes. Returns how many there are. */
static uint32_t changes(uint32_t places[MODEL_SIZE], uint8_t bits[MODEL_SIZE])
{
    uint32_t count = 0;
    model_return(kept);
    for (uint32_t place = 0; place < MODEL_SIZE; place++)
        wanted[place] = model_octet(place);
    model_return(after);
    for (uint32_t place = 0; place < MODEL_SIZE; place++) {
        uint8_t changed = (uint8_t)(model_octet(place) ^ wanted[place]);
        if (changed == 0)
            continue;
        places[count] = place;
        bits[count++] = (uint8_t)(changed & -changed);
    }
    return count;
}

/* A bit of the flash that nobody can change any more. A Set that needs it is not answered, as often as it is tried, and the name stays; but one that goes into
 * the next slot is. */
static void stuck_everywhere(uint32_t number, uint32_t cycles, uint32_t operations)
{
    static uint32_t places[MODEL_SIZE];
    static uint8_t bits[MODEL_SIZE];
    uint32_t count = changes(places, bits);
    (void)cycles, (void)operations;
    for (unsigned i = 0; i < 40; i++) {
        uint32_t which = drawn(count);
        model_return(kept);
        model_stick(places[which], bits[which]);
        must(chip_start() == 0 && boot() == 0 && has_name(number - 1), "the name before");
        must(set_name(number) == 0, "a Set that needs a stuck bit was answered");
        must(boot() == 0, "a start");
        cases++;
        must(has_name(number - 1), "the name after a Set that needs a stuck bit");
        if (set_name(number + 1) == 1)
            news++;
        else
            olds++;
        must(boot() == 0 && (has_name(number - 1) || has_name(number + 1)), "a start");
    }
}

int main(int count, char *words[])
{
    if (count == 2)
        seeds = strtoul(words[1], NULL, 10);
    kept = malloc(model_size());
    after = malloc(model_size());
    if (kept == NULL || after == NULL)
        return 71;
    calls();
    statuses();
    timeouts();
    stuck();
    others();
    for (unsigned which = 0; which < 3; which++)
        half_given(which);
    printf("the driver: %lu calls as expected\n", cases);
    fflush(stdout);
    through_sets(cut_everywhere);
    report("power cut in each cycle of the bus");
    through_sets(trouble_everywhere);
    report("operations fail, are late, or never end");
    through_sets(stuck_everywhere);
    report("a bit that is stuck, and the Set after it");
    through_sets(cut_in_erases);
    must(!NOR_PROGRAMS_FIRST || wrong == 0, "other settings after an erase that first programs");
    report(NOR_PROGRAMS_FIRST ? "an erase that first programs, with the remedy" : "an erase that first programs, without the remedy");
    free(kept);
    free(after);
    return 0;
}
