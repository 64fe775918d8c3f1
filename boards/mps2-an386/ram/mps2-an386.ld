/* The memory of a small Cortex-M4: 256 KB of flash and 128 KB of RAM. QEMU's machine mps2-an386 has more of both at these addresses. */
ENTRY(reset)

MEMORY {
    code (rx) : ORIGIN = 0x00000000, LENGTH = 256K
    ram (rw) : ORIGIN = 0x20000000, LENGTH = 128K
}

SECTIONS {
    .text : {
        KEEP(*(.vectors))
        *(.text .text.*)
        *(.rodata .rodata.*)
        . = ALIGN(4);
    } > code
    .ARM.exidx : { *(.ARM.exidx .ARM.exidx.*) } > code
    .data : ALIGN(16) {
        data_start = .;
        *(.data .data.*)
        . = ALIGN(4);
        data_end = .;
    } > ram AT > code
    data_load = LOADADDR(.data);
    .bss (NOLOAD) : ALIGN(16) {
        bss_start = .;
        *(.bss .bss.* COMMON)
        . = ALIGN(8);
        bss_end = .;
    } > ram
    /* The rest of the RAM is the stack. */
    stack_end = bss_end;
    stack_begin = ORIGIN(ram) + LENGTH(ram);
    /* A call of the library takes at most 16 KB, and its caller a little. */
    ASSERT(stack_begin - stack_end >= 16K + 512, "there is no room for the stack")
}
