#include "nor_model.h"
#include "nor_bus.h"
#include <stdlib.h>
#include <string.h>

#define WORDS (MODEL_SIZE / 4)
#define BLOCK_WORDS (MODEL_BLOCK / 4)
#define BUFFER_WORDS (MODEL_BUFFER / 2)
#define BLOCKS (MODEL_SIZE / MODEL_BLOCK)
/* Ticks of a cycle of the bus, and how long each operation takes. */
#define CYCLE 60u
#define WORD_TICKS (NOR_TICKS * 2u)
#define BUFFER_TICKS (NOR_TICKS * 4u)
#define ERASE_TICKS (NOR_TICKS * 1000u)
#define LOCK_TICKS 7u
#define NEVER_TICKS 1000000u
#define SEQUENCE 0x30u

/* The second cycle that a chip waits for, and the operation that is going on. */
enum wait { NOTHING, DATA, ERASE_CONFIRM, LOCK_CONFIRM, COUNT, WORDS_OF_BUFFER, BUFFER_CONFIRM };
enum mode { ARRAY, STATUS, QUERY };
enum kind { IDLE, PROGRAMS, ERASES, UNLOCKS, LOCKS };

struct chip {
    uint16_t array[WORDS], stuck[WORDS];
    uint8_t is_unlocked[BLOCKS];
    enum wait wait;
    enum mode mode;
    enum kind kind;
    uint8_t status, at_end;
    uint32_t first, count, left, ends;
    int never;
    unsigned done;
    uint16_t data[BUFFER_WORDS];
    uint8_t letter; /* the first octet of CFI's QRY */
};

static struct model {
    struct chip chips[2];
    uint32_t ticks, cycles, until_cut, operations;
    int has_cut, has_trouble;
    struct model_trouble trouble;
    uint64_t seed;
} model;

jmp_buf model_off;
static int programs_first; /* of the kind of chip, and no state */

static uint32_t drawn(void)
{
    model.seed = model.seed * 6364136223846793005u + 1442695040888963407u;
    return (uint32_t)(model.seed >> 33);
}

/* --- Operations --- */

static void put(struct chip *chip, uint32_t word, uint16_t value)
{
    chip->array[word] = (uint16_t)((value & ~chip->stuck[word]) | (chip->array[word] & chip->stuck[word]));
}

/* Whether the i-th of `count` bits changes before the operation ends in this way. */
static uint16_t mask_of(enum model_torn torn, uint32_t word, uint32_t whole)
{
    if (torn == TORN_SOME)
        return (uint16_t)drawn();
    return torn == TORN_ALL || (torn == TORN_FIRST && word < whole) ? 0xFFFF : 0;
}

/* Some of the bits: all of them, or each with the chance 1/2, and so on to 1/64. */
static uint16_t sparse(uint32_t halvings)
{
    uint32_t mask = 0xFFFF;
    for (uint32_t i = 0; i < halvings; i++)
        mask &= drawn();
    return (uint16_t)mask;
}

/* Does a part of what goes on. An erase that first programs is stopped in one of its halves: in the first one some bits have fallen, many or few. */
static void apply(struct chip *chip, enum model_torn torn)
{
    uint32_t words = chip->kind == ERASES ? BLOCK_WORDS : chip->count, whole = words == 0 ? 0 : drawn() % words, halvings = drawn() % 7;
    int is_falling = programs_first && chip->kind == ERASES && torn != TORN_ALL && drawn() % 2 == 0;
    for (uint32_t i = 0; i < words; i++) {
        uint16_t mask = mask_of(torn, i, whole), was = chip->array[chip->first + i];
        if (chip->kind == PROGRAMS)
            put(chip, chip->first + i, (uint16_t)(was & (chip->data[i] | ~mask)));
        else if (is_falling)
            put(chip, chip->first + i, (uint16_t)(was & ~sparse(halvings)));
        else
            put(chip, chip->first + i, (uint16_t)((programs_first && torn != TORN_NONE ? 0 : was) | mask));
    }
}

/* Ends what goes on, if its time has come. */
static void pass(struct chip *chip)
{
    uint32_t block = chip->first / BLOCK_WORDS;
    if (chip->kind == IDLE || chip->never || (int32_t)(model.ticks - chip->ends) < 0)
        return;
    if (chip->kind == UNLOCKS || chip->kind == LOCKS)
        chip->is_unlocked[block] = chip->kind == UNLOCKS;
    else
        apply(chip, chip->done == 1 ? TORN_ALL : chip->done == 2 ? TORN_SOME : TORN_NONE);
    chip->kind = IDLE;
    chip->status = (uint8_t)(chip->status | 0x80 | chip->at_end);
}

/* Begins an operation. A block that is locked stays as it is. */
static void begin(unsigned number, enum kind kind, uint32_t first, uint32_t ticks)
{
    struct chip *chip = &model.chips[number];
    uint8_t fault = kind == ERASES ? 0x22 : 0x12;
    int is_locked = (kind == PROGRAMS || kind == ERASES) && !chip->is_unlocked[first / BLOCK_WORDS];
    chip->kind = kind;
    chip->mode = STATUS;
    chip->first = first;
    chip->ends = model.ticks + ticks;
    chip->never = 0;
    chip->status &= 0x7F;
    chip->at_end = is_locked ? fault : 0;
    chip->done = !is_locked;
    if (model.has_trouble && model.trouble.at == model.operations && (model.trouble.chips >> number & 1) != 0) {
        chip->at_end |= model.trouble.status;
        chip->ends += model.trouble.late;
        chip->never = model.trouble.late == UINT32_MAX;
        chip->done = is_locked ? 0 : model.trouble.done;
    }
}

static void refuse(struct chip *chip)
{
    chip->mode = STATUS;
    chip->status |= SEQUENCE;
}

/* --- Cycles of the bus --- */

/* The cycle after a command that has two or more. */
static void go_on(unsigned number, uint32_t word, uint16_t value)
{
    struct chip *chip = &model.chips[number];
    enum wait wait = chip->wait;
    chip->wait = NOTHING;
    if (wait == DATA) {
        chip->data[0] = value;
        chip->count = 1;
        begin(number, PROGRAMS, word, WORD_TICKS);
    } else if (wait == ERASE_CONFIRM && value == 0xD0) {
        begin(number, ERASES, word / BLOCK_WORDS * BLOCK_WORDS, ERASE_TICKS);
    } else if (wait == LOCK_CONFIRM && (value == 0xD0 || value == 1)) {
        begin(number, value == 1 ? LOCKS : UNLOCKS, word, LOCK_TICKS);
    } else if (wait == COUNT && value < BUFFER_WORDS) {
        chip->count = chip->left = value + 1u;
        chip->wait = WORDS_OF_BUFFER;
    } else if (wait == WORDS_OF_BUFFER) {
        if (chip->left == chip->count)
            chip->first = word;
        if (word - chip->first >= chip->count || word / BUFFER_WORDS != chip->first / BUFFER_WORDS) {
            refuse(chip);
            return;
        }
        chip->data[word - chip->first] = value;
        chip->wait = --chip->left == 0 ? BUFFER_CONFIRM : WORDS_OF_BUFFER;
    } else if (wait == BUFFER_CONFIRM && value == 0xD0) {
        begin(number, PROGRAMS, chip->first, BUFFER_TICKS);
    } else {
        refuse(chip);
    }
}

static void command(struct chip *chip, uint16_t value)
{
    static const struct {
        uint8_t octet;
        enum wait wait;
    } longer[] = {{0x40, DATA}, {0x10, DATA}, {0x20, ERASE_CONFIRM}, {0x60, LOCK_CONFIRM}, {0xE8, COUNT}};
    for (size_t i = 0; i < sizeof longer / sizeof longer[0]; i++)
        if (longer[i].octet == (value & 0xFF)) {
            chip->wait = longer[i].wait;
            chip->mode = STATUS;
        }
    if ((value & 0xFF) == 0xFF)
        chip->mode = ARRAY;
    else if ((value & 0xFF) == 0x70)
        chip->mode = STATUS;
    else if ((value & 0xFF) == 0x98)
        chip->mode = QUERY;
    else if ((value & 0xFF) == 0x50)
        chip->status &= 0x80;
}

/* Time passes, and power may be cut. */
static void cycle(int counts)
{
    model.ticks += CYCLE;
    if (!counts)
        return;
    if (model.has_cut && model.until_cut == 0)
        longjmp(model_off, 1);
    model.until_cut -= (uint32_t)model.has_cut;
    model.cycles++;
}

void nor_bus_write(uint32_t place, uint32_t word)
{
    int has_begun = 0;
    cycle(1);
    for (unsigned number = 0; number < 2; number++) {
        struct chip *chip = &model.chips[number];
        uint16_t half = (uint16_t)(word >> (16 * number));
        enum kind was;
        pass(chip);
        was = chip->kind;
        if (was != IDLE)
            continue; /* a chip that is busy reads no command */
        if (chip->wait != NOTHING)
            go_on(number, place / 4 % WORDS, half);
        else
            command(chip, half);
        has_begun |= chip->kind != was;
    }
    model.operations += (uint32_t)has_begun;
}

/* CFI of a chip: a word each, from QRY on. */
static uint8_t query(const struct chip *chip, uint32_t word)
{
    static const uint8_t table[0x40] = {[0x11] = 'R', [0x12] = 'Y', [0x13] = 1, [0x1F] = 1, [0x20] = 2, [0x21] = 1, [0x23] = 2, [0x24] = 2, [0x25] = 1, [0x27] = 15,
                                        [0x2A] = 6, [0x2C] = 1, [0x2D] = 7, [0x2F] = 16};
    return word == 0x10 ? chip->letter : word < sizeof table ? table[word] : 0;
}

uint32_t nor_bus_read(uint32_t place)
{
    uint32_t found = 0, word = place / 4 % WORDS;
    cycle(model.chips[0].mode == STATUS || model.chips[1].mode == STATUS);
    for (unsigned number = 0; number < 2; number++) {
        struct chip *chip = &model.chips[number];
        pass(chip);
        if (chip->never)
            model.ticks += NEVER_TICKS; /* nobody waits for hours */
        found |= (uint32_t)(chip->mode == ARRAY ? chip->array[word] : chip->mode == STATUS ? chip->status : query(chip, word)) << (16 * number);
    }
    return found;
}

uint32_t nor_bus_ticks(void)
{
    return model.ticks;
}

/* --- For tests --- */

static void power(void)
{
    for (unsigned number = 0; number < 2; number++) {
        struct chip *chip = &model.chips[number];
        chip->wait = NOTHING;
        chip->mode = ARRAY;
        chip->kind = IDLE;
        chip->never = 0;
        chip->status = 0x80;
        memset(chip->is_unlocked, 0, sizeof chip->is_unlocked);
    }
    model.has_cut = 0;
}

void model_make(void)
{
    memset(&model, 0, sizeof model);
    memset(model.chips[0].array, 0xFF, sizeof model.chips[0].array);
    memset(model.chips[1].array, 0xFF, sizeof model.chips[1].array);
    model.chips[0].letter = model.chips[1].letter = 'Q';
    power();
}

void model_restart(enum model_torn torn, uint64_t seed)
{
    model.seed = seed;
    for (unsigned number = 0; number < 2; number++)
        if (model.chips[number].kind == PROGRAMS || model.chips[number].kind == ERASES)
            apply(&model.chips[number], torn);
    power();
}

void model_cut(uint32_t cycles)
{
    model.has_cut = 1;
    model.until_cut = cycles;
}

void model_cut_never(void)
{
    model.has_cut = 0;
}

uint32_t model_cycles(void)
{
    return model.cycles;
}

void model_order(const struct model_trouble *trouble)
{
    model.operations = 0;
    model.has_trouble = trouble != NULL;
    if (trouble != NULL)
        model.trouble = *trouble;
}

uint32_t model_operations(void)
{
    return model.operations;
}

void model_stick(uint32_t place, uint8_t bits)
{
    uint16_t *word = &model.chips[place % 4 / 2].stuck[place / 4];
    *word = (uint16_t)(*word | bits << place % 2 * 8);
}

void model_programs_first(int is_so)
{
    programs_first = is_so;
}

void model_be(unsigned chip, uint8_t first)
{
    model.chips[chip].letter = first;
}

uint8_t model_octet(uint32_t place)
{
    return (uint8_t)(model.chips[place % 4 / 2].array[place / 4] >> place % 2 * 8);
}

void model_set(uint32_t place, uint8_t octet)
{
    uint16_t *word = &model.chips[place % 4 / 2].array[place / 4];
    unsigned shift = place % 2 * 8;
    *word = (uint16_t)((*word & ~(0xFF << shift)) | octet << shift);
}

size_t model_size(void)
{
    return sizeof model;
}

void model_keep(void *room)
{
    memcpy(room, &model, sizeof model);
}

void model_return(const void *room)
{
    memcpy(&model, room, sizeof model);
}
