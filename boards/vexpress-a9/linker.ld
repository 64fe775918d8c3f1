/* The memory of the program: 256 KB of code and 128 KB of RAM, as a small processor has. The board has more; both are in its RAM at 0x60000000,
 * where a loader (QEMU's -kernel) puts the program at each reset. */
ENTRY(reset)

MEMORY {
    code (rx) : ORIGIN = 0x60000000, LENGTH = 256K
    ram (rw) : ORIGIN = 0x60100000, LENGTH = 128K
}

SECTIONS {
    .text : {
        KEEP(*(.vectors))
        *(.text .text.*)
        *(.rodata .rodata.*)
        . = ALIGN(4);
    } > code
    .ARM.exidx : { *(.ARM.exidx .ARM.exidx.*) } > code
    .data : ALIGN(16) {
        *(.data .data.*)
        . = ALIGN(4);
    } > ram
    .bss (NOLOAD) : ALIGN(16) {
        bss_start = .;
        *(.bss .bss.* COMMON)
        . = ALIGN(8);
        bss_end = .;
    } > ram
    /* An interrupt needs 128 octets and its handler a little. */
    .interrupts (NOLOAD) : ALIGN(8) {
        . += 512;
        interrupt_stack = .;
    } > ram
    /* The rest of the RAM is the stack. */
    stack_end = interrupt_stack;
    stack_begin = ORIGIN(ram) + LENGTH(ram);
    /* A call of the library takes at most 16 KB, and its caller a little. */
    ASSERT(stack_begin - stack_end >= 16K + 512, "there is no room for the stack")
}
