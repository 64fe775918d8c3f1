/* ARM's board MPS2 with the image AN386, a Cortex-M4: start-up, watchdog, serial line and clock, by their registers. */
#include "board.h"
#include "board_addresses.h"
#include "clock.h"
#include "console.h"
#include "lan9118.h"
#include "meter.h"

#define REGISTER(address) (*(volatile uint32_t *)(address))

/* The system control block, SysTick and the interrupt controller of a Cortex-M. */
#define CPACR REGISTER(0xE000ED88u)
#define AIRCR REGISTER(0xE000ED0Cu)
#define SYSTICK_CONTROL REGISTER(0xE000E010u)
#define SYSTICK_RELOAD REGISTER(0xE000E014u)
#define SYSTICK_VALUE REGISTER(0xE000E018u)
#define NVIC_ENABLE REGISTER(0xE000E100u)
#define FLOATING_POINT_ON (0xFu << 20)
#define RESET_REQUEST 0x05FA0004u

/* The timer, the watchdog and the serial line of the board (CMSDK). */
#define TIMER_CONTROL REGISTER(TIMER_BASE)
#define TIMER_VALUE REGISTER(TIMER_BASE + 4u)
#define TIMER_RELOAD REGISTER(TIMER_BASE + 8u)
#define WATCHDOG_LOAD REGISTER(WATCHDOG_BASE)
#define WATCHDOG_CONTROL REGISTER(WATCHDOG_BASE + 8u)
#define WATCHDOG_CLEAR REGISTER(WATCHDOG_BASE + 12u)
#define WATCHDOG_LOCK REGISTER(WATCHDOG_BASE + 0xC00u)
#define UART_DATA REGISTER(UART_BASE)
#define UART_STATE REGISTER(UART_BASE + 4u)
#define UART_CONTROL REGISTER(UART_BASE + 8u)
#define UART_DIVIDER REGISTER(UART_BASE + 16u)

/* A unit of time is 781.25 cycles: four of them are 3,125. */
#define CYCLES_OF_FOUR_UNITS 3125u
/* The fewest cycles for which SysTick is set. */
#define SHORTEST_SLEEP 20

#define PAINT 0xA5A5A5A5u
/* Octets below the frame of the painting function that it leaves alone. */
#define MARGIN 64u

extern uint32_t data_start[], data_end[], data_load[], bss_start[], bss_end[], stack_end[], stack_begin[];

int main(void);

/* --- Time --- */

static struct {
    uint32_t last; /* the cycles at the last call of clock_units */
    uint32_t rest; /* quarters of a cycle that are no whole unit yet */
} clock;

/* The timer counts down, through all 32 bits. */
void clock_start(void)
{
    TIMER_RELOAD = 0xFFFFFFFFu;
    TIMER_VALUE = 0xFFFFFFFFu;
    TIMER_CONTROL = 1;
}

uint32_t board_cycles(void)
{
    return ~TIMER_VALUE;
}

/* Four times the cycles since the last call fit 32 bits: the watchdog ends a longer turn. While the start waits for the button it is fed, and time is
 * not needed. */
uint32_t clock_units(void)
{
    uint32_t now = board_cycles(), quarters = (now - clock.last) * 4 + clock.rest, units = quarters / CYCLES_OF_FOUR_UNITS;
    clock.rest = quarters - units * CYCLES_OF_FOUR_UNITS;
    clock.last = now;
    return units;
}

/* SysTick wakes the processor. An interrupt that comes after the loop looked for frames must not be slept over: while interrupts are masked it
 * waits, and WFI returns. */
void clock_sleep(uint32_t units)
{
    uint32_t ends = clock.last + (units * CYCLES_OF_FOUR_UNITS - clock.rest + 3) / 4;
    int32_t cycles;
    __asm__ volatile("cpsid i" ::: "memory");
    cycles = (int32_t)(ends - board_cycles());
    SYSTICK_RELOAD = (uint32_t)(cycles > SHORTEST_SLEEP ? cycles : SHORTEST_SLEEP);
    SYSTICK_VALUE = 0;
    SYSTICK_CONTROL = 7;
    meter_sleeps();
    __asm__ volatile("dsb\nwfi" ::: "memory");
    meter_wakes();
    SYSTICK_CONTROL = 0;
    __asm__ volatile("cpsie i\nisb" ::: "memory");
}

/* --- Watchdog and reset --- */

/* After this time it interrupts, and after as much again it resets by itself. QEMU may get no processor for a second on a busy machine. */
#define WATCHDOG_SECONDS 4u


void watchdog_start(void)
{
    WATCHDOG_LOCK = 0x1ACCE551u;
    WATCHDOG_LOAD = CLOCK_HZ * WATCHDOG_SECONDS;
    WATCHDOG_CONTROL = 3;
}

void watchdog_feed(void)
{
    WATCHDOG_CLEAR = 1;
}

_Noreturn void board_reset(void)
{
    console_finish();
    __asm__ volatile("dsb" ::: "memory");
    AIRCR = RESET_REQUEST;
    for (;;) {
    }
}

/* --- The serial line --- */

void serial_start(void)
{
    UART_DIVIDER = CLOCK_HZ / 115200u;
    UART_CONTROL = 3;
}

int serial_send(char character)
{
    if ((UART_STATE & 1u) != 0)
        return 0;
    UART_DATA = (uint8_t)character;
    return 1;
}

char serial_receive(void)
{
    return (UART_STATE & 2u) != 0 ? (char)UART_DATA : '\0';
}

/* --- Interrupts and the start --- */

void board_enable_card(void)
{
    NVIC_ENABLE = 1u << LAN9118_INTERRUPT;
}

static void wake(void)
{
}

static void card(void)
{
    lan9118_interrupt();
}

static void watchdog(void)
{
    console_say("watchdog\n");
    board_reset();
}

static void fault(void)
{
    console_say("fault of the processor\n");
    board_reset();
}

__attribute__((noinline)) static void paint(void)
{
    uint32_t *top = (uint32_t *)((uintptr_t)__builtin_frame_address(0) - MARGIN);
    for (volatile uint32_t *at = stack_end; at < top; at++)
        *at = PAINT;
}

uint32_t board_stack_used(void)
{
    const volatile uint32_t *at = stack_end;
    while (*at == PAINT)
        at++;
    return (uint32_t)((uintptr_t)stack_begin - (uintptr_t)at);
}

_Noreturn void reset(void);

_Noreturn void reset(void)
{
    const uint32_t *from = data_load;
    CPACR |= FLOATING_POINT_ON;
    __asm__ volatile("dsb\nisb" ::: "memory");
    for (uint32_t *at = data_start; at < data_end; at++)
        *at = *from++;
    for (uint32_t *at = bss_start; at < bss_end; at++)
        *at = 0;
    paint();
    main();
    board_reset();
}

/* What the processor reads at its start: the first stack pointer, the first instruction, the handlers of NMI, of faults, of SysTick, and those of the
 * board's interrupts. */
struct vectors {
    uint32_t *stack;
    void (*reset)(void);
    void (*system[14])(void);
    void (*board[32])(void);
};

__attribute__((section(".vectors"), used)) static const struct vectors vectors = {
    .stack = stack_begin,
    .reset = reset,
    .system = {watchdog, fault, fault, fault, fault, fault, fault, fault, fault, fault, fault, fault, fault, wake},
    .board = {fault, fault, fault, fault, fault, fault, fault, fault, fault, fault, fault, fault, fault, card}};
