#include "board.h"

/* Operations of semihosting, and the reason of an orderly end. */
enum { SYS_WRITE0 = 0x04, SYS_EXIT = 0x18, APPLICATION_EXIT = 0x20026, INTERNAL_ERROR = 0x20024 };

/* The coprocessor access register: 0xF << 20 switches the floating-point unit on. */
#define CPACR (*(volatile uint32_t *)0xE000ED88u)

#define PAINT 0xA5A5A5A5u
/* Octets below the frame of board_paint that it leaves alone: its own calls may use them. */
#define MARGIN 64u

extern uint32_t data_start[], data_end[], data_load[], bss_start[], bss_end[], stack_end[], stack_begin[];

int main(void);

static uint32_t ask_host(uint32_t operation, uint32_t argument)
{
    register uint32_t first __asm__("r0") = operation;
    register uint32_t second __asm__("r1") = argument;
    __asm__ volatile("bkpt 0xAB" : "+r"(first) : "r"(second) : "memory");
    return first;
}

void board_say(const char *text)
{
    ask_host(SYS_WRITE0, (uint32_t)(uintptr_t)text);
}

void board_say_number(uint32_t number)
{
    char text[11], *at = text + 10;
    *at = '\0';
    do
        *--at = (char)('0' + number % 10);
    while ((number /= 10) != 0);
    board_say(at);
}

_Noreturn void board_end(int has_failed)
{
    ask_host(SYS_EXIT, has_failed ? INTERNAL_ERROR : APPLICATION_EXIT);
    for (;;) {
    }
}

__attribute__((noinline)) void board_paint(void)
{
    uint32_t *top = (uint32_t *)((uintptr_t)__builtin_frame_address(0) - MARGIN);
    for (volatile uint32_t *at = stack_end; at < top; at++)
        *at = PAINT;
}

__attribute__((noinline)) uint32_t board_depth(void)
{
    const volatile uint32_t *at = stack_end;
    while (*at == PAINT)
        at++;
    return (uint32_t)((uintptr_t)__builtin_frame_address(0) - (uintptr_t)at);
}

static void fault(void)
{
    board_say("fault of the processor\n");
    board_end(1);
}

void reset(void)
{
    const uint32_t *from = data_load;
    CPACR |= 0xFu << 20;
    __asm__ volatile("dsb\nisb");
    for (uint32_t *at = data_start; at < data_end; at++)
        *at = *from++;
    for (uint32_t *at = bss_start; at < bss_end; at++)
        *at = 0;
    board_end(main());
}

/* What the processor reads at its start: the first stack pointer, the first instruction, and the handlers of the faults. */
struct vectors {
    uint32_t *stack;
    void (*reset)(void);
    void (*faults[14])(void);
};

__attribute__((section(".vectors"), used)) static const struct vectors vectors = {
    stack_begin, reset, {fault, fault, fault, fault, fault, fault, fault, fault, fault, fault, fault, fault, fault, fault}};
