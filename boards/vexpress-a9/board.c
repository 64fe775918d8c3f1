/* The board: start-up code, interrupts, clock, serial line, watchdog, and the bus of the flash. The MMU and the caches stay off: every access of a
 * device is in order, and no access of memory may be unaligned (-mno-unaligned-access). */
#include "board.h"
#include "board_addresses.h"
#include "clock.h"
#include "console.h"
#include "lan9118.h"
#include "meter.h"
#include "nandutable.h"
#include "nor_bus.h"

extern uint32_t bss_start[], bss_end[], stack_end[], stack_begin[];
int main(void);
void board_begin(void);
void board_interrupt(void);
void board_fault(void);

#define PAINT 0xA5A5A5A5u
/* Octets below the frame of the start-up code that it does not paint: its own calls may use them. */
#define MARGIN 64u

/* --- The clock: a counter of 24 MHz that nothing stops, and a timer that wakes the processor --- */

#define COUNTER REGISTER(SYSTEM + 0x5C)
#define TICKS_OF_MICROSECOND NOR_TICKS
#define TICKS_OF_UNIT (PN_UNIT_NS * TICKS_OF_MICROSECOND / 1000u)
#define TIMER_LOAD REGISTER(TIMER + 0x00)
#define TIMER_CONTROL REGISTER(TIMER + 0x08)
#define TIMER_CLEAR REGISTER(TIMER + 0x0C)

static uint32_t counted;

uint32_t nor_bus_ticks(void)
{
    return COUNTER;
}

uint32_t board_cycles(void)
{
    return COUNTER;
}

uint32_t clock_units(void)
{
    uint32_t units = (COUNTER - counted) / TICKS_OF_UNIT;
    counted += units * TICKS_OF_UNIT;
    return units;
}

/* The timer interrupts once, when the units have passed. An interrupt that comes after the loop looked for frames must not be slept over: while
 * interrupts are masked it waits, and WFI returns. */
void clock_sleep(uint32_t units)
{
    uint32_t ticks = units * TICKS_OF_UNIT, passed = COUNTER - counted;
    __asm__ volatile("cpsid i" ::: "memory");
    meter_sleeps();
    if (passed < ticks) {
        TIMER_CONTROL = 0;
        TIMER_CLEAR = 1;
        TIMER_LOAD = (ticks - passed) / TICKS_OF_MICROSECOND + 1;
        TIMER_CONTROL = 0xA3; /* on, once, interrupts, 32 bits */
        __asm__ volatile("dsb\n\twfi" ::: "memory");
    }
    meter_wakes();
    __asm__ volatile("cpsie i\n\tisb" ::: "memory");
}

/* --- Interrupts --- */

#define CPU_CONTROL REGISTER(PRIVATE + 0x100)
#define CPU_PRIORITIES REGISTER(PRIVATE + 0x104)
#define CPU_ACKNOWLEDGE REGISTER(PRIVATE + 0x10C)
#define CPU_END REGISTER(PRIVATE + 0x110)
#define DISTRIBUTOR_CONTROL REGISTER(PRIVATE + 0x1000)
#define DISTRIBUTOR_ENABLE(number) REGISTER(PRIVATE + 0x1100 + (number) / 32 * 4)
#define DISTRIBUTOR_TARGET(number) (*(volatile uint8_t *)(uintptr_t)(PRIVATE + 0x1800 + (number)))

static void enable(uint32_t number)
{
    DISTRIBUTOR_TARGET(number) = 1;
    DISTRIBUTOR_ENABLE(number) = 1u << number % 32;
}

void board_enable_card(void)
{
    enable(CARD_INTERRUPT);
}

void clock_start(void)
{
    counted = COUNTER;
    enable(TIMER_INTERRUPT);
    CPU_PRIORITIES = 0xF0;
    CPU_CONTROL = 1;
    DISTRIBUTOR_CONTROL = 1;
    __asm__ volatile("cpsie i" ::: "memory");
}

void board_interrupt(void)
{
    uint32_t taken = CPU_ACKNOWLEDGE, number = taken & 0x3FF;
    if (number == TIMER_INTERRUPT)
        TIMER_CLEAR = 1;
    else if (number == CARD_INTERRUPT)
        lan9118_interrupt();
    else if (number == WATCHDOG_INTERRUPT) {
        console_say("watchdog\n");
        board_reset();
    }
    CPU_END = taken;
}

/* --- The serial line: PL011 --- */

#define UART_DATA REGISTER(UART + 0x00)
#define UART_FLAGS REGISTER(UART + 0x18)
#define UART_LINE REGISTER(UART + 0x2C)
#define UART_CONTROL REGISTER(UART + 0x30)

void serial_start(void)
{
    UART_LINE = 0x70;     /* 8 bits, FIFOs */
    UART_CONTROL = 0x301; /* on, both directions */
}

int serial_send(char character)
{
    if ((UART_FLAGS & 0x20) != 0)
        return 0;
    UART_DATA = (uint8_t)character;
    return 1;
}

char serial_receive(void)
{
    return (UART_FLAGS & 0x10) != 0 ? '\0' : (char)(UART_DATA & 0x7F);
}

/* --- Reset and watchdog: that of the processor, as a timer whose interrupt resets. QEMU has no more; a product sets bit 3 of its control, and then it resets by itself,
 * also while interrupts are masked. It is over after 10 seconds: an erase of the flash may take some, and only the loop feeds. --- */

#define WATCHDOG_LOAD REGISTER(PRIVATE + 0x620)
#define WATCHDOG_CONTROL REGISTER(PRIVATE + 0x628)
#define WATCHDOG_SECONDS 10u
/* Its clock is 100 MHz, divided by 256. */
#define WATCHDOG_COUNT (WATCHDOG_SECONDS * (100000000u / 256u))

void watchdog_start(void)
{
    WATCHDOG_LOAD = WATCHDOG_COUNT;
    WATCHDOG_CONTROL = 255u << 8 | 5; /* divisor, interrupts, on */
    enable(WATCHDOG_INTERRUPT);
}

void watchdog_feed(void)
{
    WATCHDOG_LOAD = WATCHDOG_COUNT;
}

_Noreturn void board_reset(void)
{
    console_finish();
    REGISTER(SYSTEM + 0xA0) = 0;
    REGISTER(SYSTEM + 0xA4) = 0xC0900000; /* start, write, function 9: reboot */
    for (;;) {
    }
}

/* --- The bus of the flash --- */

uint32_t nor_bus_read(uint32_t place)
{
    return REGISTER(NOR + place);
}

void nor_bus_write(uint32_t place, uint32_t word)
{
    REGISTER(NOR + place) = word;
    __asm__ volatile("dsb" ::: "memory");
}

/* --- Start-up --- */

uint32_t board_stack_used(void)
{
    const volatile uint32_t *at = stack_end;
    while (at < stack_begin && *at == PAINT)
        at++;
    return (uint32_t)((uintptr_t)stack_begin - (uintptr_t)at);
}

void board_fault(void)
{
    console_say("fault of the processor\n");
    board_reset();
}

/* Called by the first instructions, with a stack. */
void board_begin(void)
{
    uint32_t *top = (uint32_t *)((uintptr_t)__builtin_frame_address(0) - MARGIN);
    for (uint32_t *at = bss_start; at < bss_end; at++)
        *at = 0;
    for (volatile uint32_t *at = stack_end; at < top; at++)
        *at = PAINT;
    main();
    board_reset();
}

/* The vectors, and the first instructions: interrupts are off, each mode that is used gets its stack, the floating-point unit is on, and the
 * vectors are these. An interrupt keeps the registers that a call may change. */
__asm__(".section .vectors, \"ax\"\n"
        ".arm\n"
        ".global board_vectors, reset\n"
        ".balign 32\n"
        "board_vectors:\n"
        "    b reset\n"
        "    b stopped\n"
        "    b stopped\n"
        "    b stopped\n"
        "    b stopped\n"
        "    b stopped\n"
        "    b interrupted\n"
        "    b stopped\n"
        "reset:\n"
        "    cpsid if, #0x12\n"
        "    ldr sp, =interrupt_stack\n"
        "    cpsid if, #0x17\n"
        "    ldr sp, =interrupt_stack\n"
        "    cpsid if, #0x1B\n"
        "    ldr sp, =interrupt_stack\n"
        "    cpsid if, #0x13\n"
        "    ldr sp, =stack_begin\n"
        "    ldr r0, =board_vectors\n"
        "    mcr p15, 0, r0, c12, c0, 0\n"
        "    mrc p15, 0, r0, c1, c0, 2\n"
        "    orr r0, r0, #0xF00000\n"
        "    mcr p15, 0, r0, c1, c0, 2\n"
        "    isb\n"
        "    mov r0, #0x40000000\n"
        "    vmsr fpexc, r0\n"
        "    bl board_begin\n"
        "stopped:\n"
        "    bl board_fault\n"
        "interrupted:\n"
        "    sub lr, lr, #4\n"
        "    push {r0-r3, r12, lr}\n"
        "    vpush {d0-d7}\n"
        "    vmrs r0, fpscr\n"
        "    push {r0, r1}\n"
        "    bl board_interrupt\n"
        "    pop {r0, r1}\n"
        "    vmsr fpscr, r0\n"
        "    vpop {d0-d7}\n"
        "    ldm sp!, {r0-r3, r12, pc}^\n"
        ".ltorg\n"
        ".text\n");
