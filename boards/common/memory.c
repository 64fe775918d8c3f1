/* memcpy and its kin, which the library calls: by words. Rust's own copies by octets in an archive that is optimised for size. A processor that reads and
 * writes words at any address is used so. The Makefile has flags of its own for this file: for speed, and so that no loop becomes a call of memcpy. */
#include <stddef.h>
#include <stdint.h>

void *memcpy(void *restrict to, const void *restrict from, size_t length);
void *memmove(void *to, const void *from, size_t length);
void *memset(void *to, int octet, size_t length);
int memcmp(const void *one, const void *other, size_t length);

/* A word and half a word at any address, which may be part of anything. */
typedef struct {
    uint32_t value;
} __attribute__((packed, may_alias)) words;
typedef struct {
    uint16_t value;
} __attribute__((packed, may_alias)) halves;

#ifdef __ARM_FEATURE_UNALIGNED
#define FIT(one, other) 1
#else
#define FIT(one, other) ((((uintptr_t)(one) | (uintptr_t)(other)) & 3u) == 0)
#endif

#define GET(kind, from, place) (((const kind *)((const uint8_t *)(from) + (place)))->value)
#define PUT(kind, to, place, what) (((kind *)((uint8_t *)(to) + (place)))->value = (what))
#define MOVE(kind, to, from, place) PUT(kind, to, place, GET(kind, from, place))

/* Eight octets or more: sixteen in a turn, and then the last eight, of which some may have been copied before. It is no part of memcpy, which would
 * save registers for short copies too. */
static __attribute__((noinline)) void *copy_long(void *restrict to, const uint8_t *restrict from, size_t length)
{
    uint8_t *at = to;
    for (; length > 16; length -= 16, at += 16, from += 16) {
        MOVE(words, at, from, 0);
        MOVE(words, at, from, 4);
        MOVE(words, at, from, 8);
        MOVE(words, at, from, 12);
    }
    if (length > 8) {
        MOVE(words, at, from, 0);
        MOVE(words, at, from, 4);
    }
    MOVE(words, at, from, length - 8);
    MOVE(words, at, from, length - 4);
    return to;
}

/* For a processor that reads and writes words only at their addresses: octets, after words if both begin at such an address. */
static void *copy_octets(void *restrict to, const uint8_t *restrict from, size_t length)
{
    uint8_t *at = to;
    if (FIT(at, from))
        for (; length >= 4; length -= 4, at += 4, from += 4)
            MOVE(words, at, from, 0);
    for (; length != 0; length--)
        *at++ = *from++;
    return to;
}

/* Most copies are of a few octets. Their first and their last part may be the same octets in part. */
void *memcpy(void *restrict to, const void *restrict from, size_t length)
{
    if (!FIT((uintptr_t)to | length, from))
        return copy_octets(to, from, length);
    if (length >= 8)
        return copy_long(to, from, length);
    if (length >= 4) {
        uint32_t first = GET(words, from, 0), last = GET(words, from, length - 4);
        PUT(words, to, 0, first);
        PUT(words, to, length - 4, last);
    } else if (length >= 2) {
        uint16_t first = GET(halves, from, 0), last = GET(halves, from, length - 2);
        PUT(halves, to, 0, first);
        PUT(halves, to, length - 2, last);
    } else if (length != 0)
        *(uint8_t *)to = *(const uint8_t *)from;
    return to;
}

/* From the end, if the octets overlap so that a copy from the beginning would change what is still to be copied. */
void *memmove(void *to, const void *from, size_t length)
{
    uint8_t *at = to;
    const uint8_t *source = from;
    if ((uintptr_t)to - (uintptr_t)from >= length)
        return memcpy(to, from, length);
    if (FIT((uintptr_t)at + length, (uintptr_t)source + length))
        for (; length >= 4; length -= 4)
            ((words *)(at + length - 4))->value = ((const words *)(source + length - 4))->value;
    while (length-- != 0)
        at[length] = source[length];
    return to;
}

void *memset(void *to, int octet, size_t length)
{
    uint8_t *at = to;
    uint32_t word = (uint8_t)octet * 0x01010101u;
    if (FIT(to, to)) {
        for (; length >= 16; length -= 16, at += 16)
            for (unsigned i = 0; i < 4; i++)
                ((words *)at)[i].value = word;
        for (; length >= 4; length -= 4, at += 4)
            ((words *)at)->value = word;
    }
    while (length-- != 0)
        *at++ = (uint8_t)octet;
    return to;
}

int memcmp(const void *one, const void *other, size_t length)
{
    const uint8_t *first = one, *second = other;
    if (FIT(one, other))
        for (; length >= 4 && ((const words *)first)->value == ((const words *)second)->value; length -= 4, first += 4, second += 4) {
        }
    for (; length != 0; length--, first++, second++)
        if (*first != *second)
            return *first - *second;
    return 0;
}

/* The names of the same functions in ARM's ABI, where the arguments of memset have another order. The digit says how the octets are aligned. */
#define SAME(name, as) void *name(void *to, const void *from, size_t length) __attribute__((alias(as)))
SAME(__aeabi_memcpy, "memcpy");
SAME(__aeabi_memcpy4, "memcpy");
SAME(__aeabi_memcpy8, "memcpy");
SAME(__aeabi_memmove, "memmove");
SAME(__aeabi_memmove4, "memmove");
SAME(__aeabi_memmove8, "memmove");

void *__aeabi_memset(void *to, size_t length, int octet);
void *__aeabi_memclr(void *to, size_t length);

void *__aeabi_memset(void *to, size_t length, int octet)
{
    return memset(to, octet, length);
}

void *__aeabi_memclr(void *to, size_t length)
{
    return memset(to, 0, length);
}

void *__aeabi_memset4(void *to, size_t length, int octet) __attribute__((alias("__aeabi_memset")));
void *__aeabi_memset8(void *to, size_t length, int octet) __attribute__((alias("__aeabi_memset")));
void *__aeabi_memclr4(void *to, size_t length) __attribute__((alias("__aeabi_memclr")));
void *__aeabi_memclr8(void *to, size_t length) __attribute__((alias("__aeabi_memclr")));
