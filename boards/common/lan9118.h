/* The network card LAN9118 (SMSC/Microchip), by its registers: two FIFOs without DMA, one frame after the other. */
#ifndef LAN9118_H
#define LAN9118_H

#include <stddef.h>
#include <stdint.h>

/* The longest frame that the device reads, and room for its check sequence and a last word. */
#define LAN9118_LONGEST 1519u
#define LAN9118_ROOM 1528u

/* What happened to frames since the start. */
struct lan9118_counts {
    uint32_t received;
    uint32_t broken;  /* with an error of the line, too long, or too short: not handed out */
    uint32_t dropped; /* by the card, because its FIFO was full */
    uint32_t sent;
    uint32_t not_sent; /* no room in the FIFO within the time that a frame takes */
};

/* Resets the card and starts it with this MAC address and the two groups of a device, 01-0E-CF-00-00-00 and 01-80-C2-00-00-0E. Returns 0,
 * or another number if no LAN9118 answers. */
int lan9118_start(const uint8_t mac[6]);

/* The link, as the PHY negotiated it. */
struct lan9118_link {
    int is_up;
    uint16_t capability; /* what is advertised: the bits of ifAutoNegCapAdvertised */
    uint16_t mau;        /* dot3MauType, 0 if it is not known */
};

/* Reads the link from the PHY, and sets the duplex mode of the card to it. Ask once or twice a second: the PHY is slow. */
void lan9118_link(struct lan9118_link *link);

/* Whether a frame may wait: the card has interrupted since its FIFO was found empty. */
int lan9118_has_frames(void);

/* Takes the next received frame, without its check sequence. Returns its length, or 0 if no frame waits. */
size_t lan9118_receive(uint32_t room[LAN9118_ROOM / 4]);

/* Sends a frame. Returns 0 when the card has it, and another number if the card had no room. */
int lan9118_send(const uint8_t *octets, uint32_t length);

/* What the handler of its interrupt does: it masks it. lan9118_receive lets it come again when the FIFO is empty. */
void lan9118_interrupt(void);

struct lan9118_counts lan9118_counts(void);

#endif
