#include "decoded.h"
#include "diagnosis.h"
#include "ports.h"
#include "words.h"
#include <stdio.h>
#include <string.h>

#define HEADER 6u /* BlockType, BlockLength, BlockVersion */
#define TEXT 256

/* Octets that are read in order. Beyond their end there are only zeros. */
struct reader {
    const uint8_t *at;
    size_t left;
};

static unsigned one(struct reader *reader)
{
    if (reader->left == 0)
        return 0;
    reader->left--;
    return *reader->at++;
}

static unsigned two(struct reader *reader)
{
    unsigned high = one(reader);
    return high << 8 | one(reader);
}

static uint32_t four(struct reader *reader)
{
    uint32_t high = two(reader);
    return high << 16 | two(reader);
}

/* Prints a text of this many octets without the blanks that it is filled up with. */
static void text(struct reader *reader, const char *label, size_t size)
{
    char shown[TEXT];
    size_t length = size < reader->left ? size : reader->left, used = length;
    while (used > 0 && reader->at[used - 1] == ' ')
        used--;
    printf("  %s '%s'\n", label, words_show_text(shown, sizeof shown, reader->at, used));
    reader->at += length;
    reader->left -= length;
}

/* --- Identification and maintenance --- */

static void im0(struct reader reader)
{
    unsigned prefix, first, second, third, version;
    printf("  VendorID 0x%04X\n", two(&reader));
    text(&reader, "OrderID", 20);
    text(&reader, "SerialNumber", 16);
    printf("  HardwareRevision %u\n", two(&reader));
    prefix = one(&reader);
    first = one(&reader);
    second = one(&reader);
    third = one(&reader);
    printf("  SoftwareRevision %c%u.%u.%u\n", prefix >= ' ' && prefix <= '~' ? (char)prefix : '?', first, second, third);
    printf("  RevisionCounter %u\n", two(&reader));
    printf("  ProfileID 0x%04X\n", two(&reader));
    printf("  ProfileSpecificType 0x%04X\n", two(&reader));
    version = two(&reader);
    printf("  IM_Version %u.%u\n", version >> 8, version & 0xFF);
    version = two(&reader);
    printf("  IM_Supported 0x%04X:", version);
    for (unsigned number = 1; number <= 15; number++)
        if ((version >> number & 1) != 0)
            printf(" I&M%u", number);
    puts("");
}

static void im1(struct reader reader)
{
    text(&reader, "IM_Tag_Function", 32);
    text(&reader, "IM_Tag_Location", 22);
}

static void im2(struct reader reader)
{
    text(&reader, "IM_Date", 16);
}

static void im3(struct reader reader)
{
    text(&reader, "IM_Descriptor", 54);
}

static void im4(struct reader reader)
{
    char hex[2 * 54 + 1];
    words_hex(hex, reader.at, reader.left < 54 ? reader.left : 54);
    printf("  IM_Signature %s\n", hex);
}

/* --- What is plugged --- */

/* Slots with their modules and submodules. */
static void slots(struct reader *reader)
{
    for (unsigned count = two(reader); count > 0 && reader->left > 0; count--) {
        unsigned slot = two(reader);
        printf("  slot %u: module 0x%08X\n", slot, (unsigned)four(reader));
        for (unsigned parts = two(reader); parts > 0 && reader->left > 0; parts--) {
            unsigned subslot = two(reader);
            printf("    subslot %u (0x%04X): submodule 0x%08X\n", subslot, subslot, (unsigned)four(reader));
        }
    }
}

/* The same in each API. */
static void apis_with_slots(struct reader reader)
{
    for (unsigned count = two(&reader); count > 0 && reader.left > 0; count--) {
        printf("  API %u\n", (unsigned)four(&reader));
        slots(&reader);
    }
}

static void apis(struct reader reader)
{
    for (unsigned count = two(&reader); count > 0 && reader.left > 0; count--)
        printf("  API %u\n", (unsigned)four(&reader));
}

/* --- The interface --- */

static void address(struct reader *reader, const char *label)
{
    unsigned octets[4];
    for (int i = 0; i < 4; i++)
        octets[i] = one(reader);
    printf("  %s %u.%u.%u.%u\n", label, octets[0], octets[1], octets[2], octets[3]);
}

/* PDInterfaceDataReal: padding is counted from the begin of the block. */
static void interface(struct reader reader)
{
    size_t whole = reader.left;
    char mac[WORDS_MAC];
    text(&reader, "OwnChassisID", one(&reader));
    while ((HEADER + whole - reader.left) % 4 != 0 && reader.left > 0)
        (void)one(&reader);
    if (reader.left < 20)
        return;
    printf("  MACAddress %s\n", words_show_mac(mac, reader.at));
    reader.at += 8; /* with padding */
    reader.left -= 8;
    address(&reader, "IPAddress");
    address(&reader, "SubnetMask");
    address(&reader, "Gateway");
}

/* --- Blocks --- */

static const struct {
    unsigned type, version;
    const char *name;
    void (*print)(struct reader reader);
} known[] = {
    {0x0020, 0x0100, "I&M0", im0},
    {0x0021, 0x0100, "I&M1", im1},
    {0x0022, 0x0100, "I&M2", im2},
    {0x0023, 0x0100, "I&M3", im3},
    {0x0024, 0x0100, "I&M4", im4},
    {0x0012, 0x0101, "ExpectedIdentificationData", apis_with_slots},
    {0x0013, 0x0101, "RealIdentificationData", apis_with_slots},
    {0x001A, 0x0100, "APIData", apis},
    {0x0030, 0x0100, "I&M0FilterDataSubmodule", apis_with_slots},
    {0x0031, 0x0100, "I&M0FilterDataModule", apis_with_slots},
    {0x0032, 0x0100, "I&M0FilterDataDevice", apis_with_slots},
    {0x0240, 0x0100, "PDInterfaceDataReal", interface},
};

#define MULTIPLE 0x0400u
#define MULTIPLE_FRONT 16u /* header, padding, API, slot and subslot */
#define PORT 0x020Fu
#define DIAGNOSIS 0x0010u

static unsigned number_at(const uint8_t *octets)
{
    return (unsigned)(octets[0] << 8 | octets[1]);
}

static void print_block(const uint8_t *block, size_t size)
{
    char words[1024];
    for (size_t i = 0; i < sizeof known / sizeof known[0]; i++)
        if (number_at(block) == known[i].type && number_at(block + 4) == known[i].version) {
            printf("  %s:\n", known[i].name);
            known[i].print((struct reader){block + HEADER, size - HEADER});
            return;
        }
    if (number_at(block) == PORT && ports_words(block, size, words, sizeof words) && words[0] != '\0')
        puts(words);
}

static void print_blocks(const uint8_t *octets, size_t length, unsigned depth)
{
    for (size_t at = 0; at + HEADER <= length;) {
        const uint8_t *block = octets + at;
        size_t size = 4 + (size_t)number_at(block + 2);
        if (size < HEADER || size > length - at)
            return;
        if (number_at(block) == MULTIPLE && depth == 0 && size >= MULTIPLE_FRONT)
            print_blocks(block + MULTIPLE_FRONT, size - MULTIPLE_FRONT, 1);
        else
            print_block(block, size);
        at += size;
    }
}

static void print_diagnoses(const struct diagnoses *diagnoses)
{
    static const struct texts standard; /* a maker's own errors are in a catalogue */
    char text[DIAGNOSIS_WORDS];
    for (unsigned i = 0; i < diagnoses->count; i++)
        printf("  diagnosis %s\n", diagnosis_words(&standard, &diagnoses->list[i], text));
    if (diagnoses->others != 0)
        printf("  diagnosis: %u of another structure\n", diagnoses->others);
}

void decoded_print(const uint8_t *octets, size_t length)
{
    static struct diagnoses diagnoses;
    if (length >= HEADER && number_at(octets) == DIAGNOSIS && diagnosis_read(&diagnoses, octets, length))
        print_diagnoses(&diagnoses);
    else
        print_blocks(octets, length, 0);
}
