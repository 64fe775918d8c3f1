/* What tools/release/cortex-m links with examples/c/player.c: the streams of the C library go to the host, and the stack is painted before
 * each call of the library. The script is the file script.txt. At the end it prints the deepest stack of each kind of call. */
#include "board.h"
#include "nandutable.h"
#include <stdio.h>
#include <stdlib.h>

void initialise_monitor_handles(void);
int player_main(void);
void __real_pn_put(void *room, const pn_station *station);
uint32_t __real_pn_step(void *room, pn_op *op, const uint8_t *given, size_t length);
void __real_pn_fetch(void *room, pn_op *op, uint32_t *answer, const uint8_t **octets);
void __wrap_pn_put(void *room, const pn_station *station);
void __wrap_pn_fetch(void *room, pn_op *op, uint32_t *answer, const uint8_t **octets);
uint32_t __wrap_pn_step(void *room, pn_op *op, const uint8_t *given, size_t length);

/* The kinds of call by the number of the operation; 0 is pn_make, and 7, which is no operation, pn_next. */
static const char *const names[] = {"pn_make",  "pn_boot", "pn_boot",    "pn_frame",  "pn_tick", "pn_input", "pn_alarm", "pn_next",
                                    "pn_output", "pn_state", "pn_running", "pn_stored", "pn_lose", "pn_taken", "pn_left"};
#define KINDS (sizeof names / sizeof names[0])
static uint32_t deepest[KINDS];

static void keep(uint32_t kind, uint32_t depth)
{
    if (kind < KINDS && depth > deepest[kind])
        deepest[kind] = depth;
}

void __wrap_pn_put(void *room, const pn_station *station)
{
    board_paint();
    __real_pn_put(room, station);
    keep(0, board_depth());
}

uint32_t __wrap_pn_step(void *room, pn_op *op, const uint8_t *given, size_t length)
{
    uint32_t kind = op->what, answer;
    board_paint();
    answer = __real_pn_step(room, op, given, length);
    keep(kind, board_depth());
    return answer;
}

void __wrap_pn_fetch(void *room, pn_op *op, uint32_t *answer, const uint8_t **octets)
{
    board_paint();
    __real_pn_fetch(room, op, answer, octets);
    keep(7, board_depth());
}

int main(void)
{
    int status;
    initialise_monitor_handles();
    if (freopen("script.txt", "r", stdin) == NULL) /* in QEMU's folder */
        return 1;
    status = player_main();
    fflush(stdout);
    for (uint32_t kind = 0; kind < KINDS; kind++)
        if (deepest[kind] != 0)
            fprintf(stderr, "deepest stack of %s: %lu octets\n", names[kind], (unsigned long)deepest[kind]);
    fflush(stderr);
    return status;
}
