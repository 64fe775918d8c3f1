#include "meter.h"
#include "board.h"
#include "console.h"

static struct {
    uint32_t begun, most;
} meters[METERS];

void meter_begin(int what)
{
    meters[what].begun = board_cycles();
}

void meter_end(int what)
{
    uint32_t spent = board_cycles() - meters[what].begun;
    if (spent > meters[what].most)
        meters[what].most = spent;
}

void meter_tell(void)
{
    static const char *const names[METERS] = {"turn", "boot", "frame"};
    for (unsigned i = 0; i < METERS; i++) {
        console_say("meter-");
        console_say(names[i]);
        console_line(" ", meters[i].most);
        meters[i].most = 0;
    }
}
