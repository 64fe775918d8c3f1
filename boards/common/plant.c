#include "plant.h"
#include "board.h"
#include "console.h"
#include "host.h"
#include "lan9118.h"
#include "meter.h"

static uint16_t position, pressure = 1000;
static int is_broken, is_pressed, is_purging;

uint16_t plant_position(void)
{
    return position;
}

int plant_pressure(uint16_t *value)
{
    if (is_broken)
        return 1;
    *value = pressure;
    return 0;
}

void plant_drive(uint16_t wanted, uint16_t most)
{
    if (wanted > position)
        position = (uint16_t)(wanted - position > most ? position + most : wanted);
    else
        position = (uint16_t)(position - wanted > most ? position - most : wanted);
}

void plant_purge(int is_open)
{
    if (is_open != is_purging)
        console_say(is_open ? "purge open\n" : "purge closed\n");
    is_purging = is_open;
}

int plant_button(void)
{
    int was_pressed = is_pressed;
    is_pressed = 0;
    return was_pressed;
}

/* What the board counted, for tests. */
static void tell_counts(void)
{
    struct host_counts host = host_counts();
    struct lan9118_counts card = lan9118_counts();
    console_line("turns ", host.turns);
    console_line("programs ", host.programs);
    console_line("erases ", host.erases);
    console_line("losses ", host.losses);
    console_line("forgotten ", host.forgotten);
    console_line("received ", card.received);
    console_line("broken ", card.broken);
    console_line("dropped ", card.dropped);
    console_line("sent ", card.sent);
    console_line("not-sent ", card.not_sent);
    meter_tell();
    console_line("stack ", board_stack_used());
}

/* s: the sensor breaks, or is repaired. p, q: the pressure is high, or as it should be. b: the button. m: counts. h: the program hangs. */
void plant_step(void)
{
    switch (serial_receive()) {
    case 's':
        is_broken = !is_broken;
        break;
    case 'p':
        pressure = 4000;
        break;
    case 'q':
        pressure = 1000;
        break;
    case 'b':
        is_pressed = 1;
        break;
    case 'm':
        tell_counts();
        break;
    case 'h':
        console_say("hangs\n");
        console_finish();
        for (;;) {
        }
    default:
        break;
    }
}
