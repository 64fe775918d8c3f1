#include "lan9118.h"
#include "board_addresses.h"
#include <string.h>

/* Registers, by their offsets. */
enum {
    RX_DATA = 0x00,
    TX_DATA = 0x20,
    RX_STATUS = 0x40,
    TX_STATUS = 0x48,
    ID_REV = 0x50,
    IRQ_CFG = 0x54,
    INT_STS = 0x58,
    INT_EN = 0x5C,
    BYTE_TEST = 0x64,
    FIFO_INT = 0x68,
    RX_CFG = 0x6C,
    TX_CFG = 0x70,
    HW_CFG = 0x74,
    RX_DP_CTL = 0x78,
    RX_FIFO_INF = 0x7C,
    TX_FIFO_INF = 0x80,
    PMT_CTRL = 0x84,
    RX_DROP = 0xA0,
    MAC_CSR_CMD = 0xA4,
    MAC_CSR_DATA = 0xA8,
    AFC_CFG = 0xAC
};

#define CHIP_118 0x0118u          /* ID_REV, upper half */
#define BYTE_ORDER 0x87654321u    /* BYTE_TEST */
#define IRQ_PUSH_PULL_HIGH 0x11u  /* IRQ_CFG: the pin is driven, and high if there is an interrupt */
#define IRQ_ENABLED 0x100u        /* IRQ_CFG */
#define RECEIVED 0x08u            /* INT_STS, INT_EN: more frames wait than FIFO_INT says */
#define STORE_AND_FORWARD 0x00100000u /* HW_CFG */
#define FIFO_5K 0x00050000u       /* HW_CFG: 5 KB to send, the rest to receive */
#define SOFT_RESET 1u             /* HW_CFG */
#define TX_ON 2u                  /* TX_CFG */
#define TX_STATUS_MAY_BE_LOST 4u  /* TX_CFG: what nobody reads does not stop the sender */
#define READY 1u                  /* PMT_CTRL */
#define FAST_FORWARD 0x80000000u  /* RX_DP_CTL: skips a frame */
#define HAS_ERROR 0x8000u         /* a status of a received or sent frame */
#define FIRST_AND_LAST 0x3000u    /* command A of a frame */
#define CSR_BUSY 0x80000000u      /* MAC_CSR_CMD */
#define CSR_READ 0x40000000u      /* MAC_CSR_CMD */

/* Registers of the MAC, each through MAC_CSR_CMD and MAC_CSR_DATA. */
enum { MAC_CR = 1, ADDRH = 2, ADDRL = 3, HASHH = 4, HASHL = 5, MII_ACC = 6, MII_DATA = 7 };
#define FULL_DUPLEX 0x00100000u   /* MAC_CR */
#define HASHED_GROUPS 0x00002000u /* MAC_CR: own address exactly, groups by their hash */
#define MAC_TX_ON 8u
#define MAC_RX_ON 4u

/* Registers of the PHY 1, through MII_ACC. */
enum { BASIC_CONTROL = 0, BASIC_STATUS = 1, ADVERTISED = 4, PARTNER = 5 };
#define PHY_1 0x0800u
#define MII_BUSY 1u
#define MII_WRITE 2u
#define AUTONEGOTIATION 0x1000u
#define RESTARTED 0x0200u
#define LINK_UP 0x0004u
#define IS_NEGOTIATED 0x0020u
#define IS_FULL_DUPLEX 0x0140u /* 100 or 10 Mbit/s, in full duplex */

/* How often a register is read until a bit changes. Longer than any of these may take. */
#define PATIENCE 1000000u
/* The same for room to send, which comes within the time of a frame: 0.13 ms at 100 Mbit/s. */
#define SENDING_PATIENCE 10000u

static struct lan9118_counts counts;
static volatile int has_frames; /* the card has interrupted, and its FIFO was not empty since */
static uint32_t link_mode = FULL_DUPLEX; /* of MAC_CR: as the PHY negotiated */

static uint32_t get(unsigned at)
{
    return *(volatile uint32_t *)(LAN9118_BASE + at);
}

static void put(unsigned at, uint32_t value)
{
    *(volatile uint32_t *)(LAN9118_BASE + at) = value;
}

/* Waits until these bits of a register have this value. Returns 0 once they have. */
static int wait_for(unsigned at, uint32_t bits, uint32_t value)
{
    for (uint32_t i = 0; i < PATIENCE; i++)
        if ((get(at) & bits) == value)
            return 0;
    return 1;
}

static uint32_t mac_get(uint32_t at)
{
    put(MAC_CSR_CMD, CSR_BUSY | CSR_READ | at);
    (void)wait_for(MAC_CSR_CMD, CSR_BUSY, 0);
    return get(MAC_CSR_DATA);
}

static void mac_put(uint32_t at, uint32_t value)
{
    put(MAC_CSR_DATA, value);
    put(MAC_CSR_CMD, CSR_BUSY | at);
    (void)wait_for(MAC_CSR_CMD, CSR_BUSY, 0);
}

static void mii_wait(void)
{
    for (uint32_t i = 0; i < PATIENCE && (mac_get(MII_ACC) & MII_BUSY) != 0; i++) {
    }
}

static uint32_t phy_get(uint32_t at)
{
    mac_put(MII_ACC, PHY_1 | at << 6 | MII_BUSY);
    mii_wait();
    return mac_get(MII_DATA) & 0xFFFFu;
}

static void phy_put(uint32_t at, uint32_t value)
{
    mac_put(MII_DATA, value);
    mac_put(MII_ACC, PHY_1 | at << 6 | MII_WRITE | MII_BUSY);
    mii_wait();
}

/* The bit of a group in HASHH (32 to 63) and HASHL (0 to 31): the upper six bits of its CRC. */
static uint32_t hash_of(const uint8_t group[6])
{
    uint32_t crc = 0xFFFFFFFFu;
    for (unsigned i = 0; i < 6; i++)
        for (unsigned bit = 0; bit < 8; bit++)
            crc = crc << 1 ^ (((crc >> 31 ^ group[i] >> bit) & 1u) != 0 ? 0x04C11DB7u : 0u);
    return crc >> 26;
}

/* Who the card is, and the two groups of a device. */
static void set_addresses(const uint8_t mac[6])
{
    static const uint8_t groups[2][6] = {{0x01, 0x0E, 0xCF, 0, 0, 0}, {0x01, 0x80, 0xC2, 0, 0, 0x0E}};
    uint32_t hashes[2] = {0, 0};
    for (unsigned i = 0; i < 2; i++) {
        uint32_t hash = hash_of(groups[i]);
        hashes[hash >> 5] |= 1u << (hash & 31u);
    }
    mac_put(ADDRH, mac[4] | (uint32_t)mac[5] << 8);
    mac_put(ADDRL, mac[0] | (uint32_t)mac[1] << 8 | (uint32_t)mac[2] << 16 | (uint32_t)mac[3] << 24);
    mac_put(HASHL, hashes[0]);
    mac_put(HASHH, hashes[1]);
}

int lan9118_start(const uint8_t mac[6])
{
    if (get(BYTE_TEST) != BYTE_ORDER || get(ID_REV) >> 16 != CHIP_118 || wait_for(PMT_CTRL, READY, READY) != 0)
        return 1;
    put(HW_CFG, SOFT_RESET);
    if (wait_for(HW_CFG, SOFT_RESET, 0) != 0 || wait_for(PMT_CTRL, READY, READY) != 0)
        return 1;
    link_mode = FULL_DUPLEX;
    put(HW_CFG, STORE_AND_FORWARD | FIFO_5K);
    put(AFC_CFG, 0x006E3740u); /* flow control is off: MAC register FLOW is 0 */
    put(FIFO_INT, 0);          /* an interrupt from the first frame on */
    put(RX_CFG, 0);            /* frames begin in the first octet of a word */
    set_addresses(mac);
    phy_put(BASIC_CONTROL, AUTONEGOTIATION | RESTARTED);
    put(TX_CFG, TX_ON | TX_STATUS_MAY_BE_LOST);
    mac_put(MAC_CR, FULL_DUPLEX | HASHED_GROUPS | MAC_TX_ON | MAC_RX_ON);
    put(INT_STS, 0xFFFFFFFFu);
    put(IRQ_CFG, IRQ_PUSH_PULL_HIGH | IRQ_ENABLED);
    put(INT_EN, RECEIVED);
    return 0;
}

void lan9118_link(struct lan9118_link *link)
{
    static const struct {
        uint16_t advertised, capability, mau;
    } kinds[] = {{0x0100, 0x0400, 16}, {0x0080, 0x0800, 15}, {0x0040, 0x2000, 11}, {0x0020, 0x4000, 10}};
    uint32_t status = phy_get(BASIC_STATUS), advertised = phy_get(ADVERTISED), common = advertised & phy_get(PARTNER), mode;
    memset(link, 0, sizeof *link);
    link->is_up = (status & LINK_UP) != 0 && (status & IS_NEGOTIATED) != 0;
    for (unsigned i = 0; i < sizeof kinds / sizeof kinds[0]; i++) {
        if ((advertised & kinds[i].advertised) != 0)
            link->capability |= kinds[i].capability;
        if (link->mau == 0 && (common & kinds[i].advertised) != 0)
            link->mau = kinds[i].mau;
    }
    if (!link->is_up)
        return;
    mode = link->mau == 16 || link->mau == 11 ? FULL_DUPLEX : 0;
    if (mode != link_mode) {
        link_mode = mode;
        mac_put(MAC_CR, mode | HASHED_GROUPS | MAC_TX_ON | MAC_RX_ON);
    }
}

void lan9118_interrupt(void)
{
    put(INT_EN, 0);
    has_frames = 1;
}

int lan9118_has_frames(void)
{
    return has_frames;
}

/* Skips the frame whose status was read. */
static void skip(void)
{
    put(RX_DP_CTL, FAST_FORWARD);
    (void)wait_for(RX_DP_CTL, FAST_FORWARD, 0);
    counts.broken++;
}

/* Whether the status of a frame waits. When no status waits, the interrupt comes again with the next frame. */
static int is_waiting(void)
{
    if ((get(RX_FIFO_INF) & 0x00FF0000u) != 0)
        return 1;
    has_frames = 0;
    put(INT_STS, RECEIVED);
    put(INT_EN, RECEIVED);
    return (get(RX_FIFO_INF) & 0x00FF0000u) != 0;
}

/* Takes words from the FIFO. Its port is at eight addresses, so that two instructions copy eight words. An interrupt between two of these words takes
 * none twice: the base is not a register, so a Cortex-M4 goes on with the next word, and a Cortex-A9 does not interrupt what accesses a device. */
static __attribute__((noinline)) void take_words(uint32_t *to, uint32_t count)
{
    for (; count >= 8; count -= 8)
        __asm__ volatile("ldmia %1, {r4-r9, r12, lr}\n\tstmia %0!, {r4-r9, r12, lr}"
                         : "+r"(to)
                         : "r"(LAN9118_BASE + RX_DATA)
                         : "r4", "r5", "r6", "r7", "r8", "r9", "r12", "lr", "memory");
    for (; count != 0; count--)
        *to++ = get(RX_DATA);
}

size_t lan9118_receive(uint32_t room[LAN9118_ROOM / 4])
{
    while (is_waiting()) {
        uint32_t status = get(RX_STATUS), length = status >> 16 & 0x3FFFu, words = (length + 3) / 4;
        if ((status & HAS_ERROR) != 0 || length < 18 || length > LAN9118_LONGEST + 4) {
            skip();
            continue;
        }
        take_words(room, words);
        counts.received++;
        return length - 4;
    }
    return 0;
}

/* Four octets, or fewer with zeros after them, as the card wants them: the first one is the lowest. */
static uint32_t word_of(const uint8_t *octets, uint32_t count)
{
    uint32_t word = 0;
    memcpy(&word, octets, count);
    return word;
}

/* Gives whole words to the FIFO, in the same way if they begin at the address of a word. Returns the octets after them. */
static const uint8_t *give_words(const uint8_t *octets, uint32_t count)
{
    for (; count >= 8 && ((uintptr_t)octets & 3u) == 0; count -= 8)
        __asm__ volatile("ldmia %0!, {r4-r9, r12, lr}\n\tstmia %1, {r4-r9, r12, lr}"
                         : "+r"(octets)
                         : "r"(LAN9118_BASE + TX_DATA)
                         : "r4", "r5", "r6", "r7", "r8", "r9", "r12", "lr", "memory");
    for (; count != 0; count--, octets += 4)
        put(TX_DATA, word_of(octets, 4));
    return octets;
}

int lan9118_send(const uint8_t *octets, uint32_t length)
{
    const uint8_t *rest;
    for (uint32_t i = 0; (get(TX_FIFO_INF) & 0xFFFFu) < length + 12; i++)
        if (i == SENDING_PATIENCE) {
            counts.not_sent++;
            return 1;
        }
    put(TX_DATA, FIRST_AND_LAST | length);
    put(TX_DATA, length);
    rest = give_words(octets, length / 4);
    if ((length & 3u) != 0)
        put(TX_DATA, word_of(rest, length & 3u));
    counts.sent++;
    return 0;
}

struct lan9118_counts lan9118_counts(void)
{
    counts.dropped += get(RX_DROP); /* reading sets it to zero */
    return counts;
}
