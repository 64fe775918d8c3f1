/* The firmware: the board's start-up code calls main once data and bss are set and the stack is painted. */
#include "application.h"
#include "board.h"
#include "chip.h"
#include "clock.h"
#include "console.h"
#include "host.h"
#include "lan9118.h"

static _Noreturn void stop(const char *why)
{
    console_say(why);
    board_reset();
}

int main(void)
{
    serial_start();
    watchdog_start();
    clock_start();
    if (chip_start() != 0)
        stop("the chip does not answer\n");
    if (lan9118_start(application_station.mac) != 0)
        stop("the network card does not answer\n");
    board_enable_card();
    host_run();
}
