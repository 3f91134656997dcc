/*
 * Where things lie on a Cortex-M board. Places and sizes are those of the smaller of the two
 * boards that we try (microbit, an nRF51822); put those of your flash and RAM.
 *
 * The stack has the bottom of the RAM, so that one that grows too long overwrites no
 * variable: it is a fault, if your board has nothing below its RAM. The library takes less
 * than 4 KiB of it.
 */
ENTRY(reset)

MEMORY
{
    FLASH (rx) : ORIGIN = 0x00000000, LENGTH = 256K
    STACK (rw) : ORIGIN = 0x20000000, LENGTH = 8K
    RAM (rw) : ORIGIN = 0x20002000, LENGTH = 8K
}

stack_top = ORIGIN(STACK) + LENGTH(STACK);

SECTIONS
{
    .text : {
        KEEP(*(.vectors))
        *(.text .text.*)
        *(.rodata .rodata.*)
        . = ALIGN(4);
    } > FLASH

    /* Tables for unwinding the stack, which no C program needs. */
    /DISCARD/ : { *(.ARM.exidx .ARM.exidx.*) }

    .data : ALIGN(4) {
        . = ALIGN(4);
        data_start = .;
        *(.data .data.*)
        . = ALIGN(4);
        data_end = .;
    } > RAM AT > FLASH

    data_in_flash = LOADADDR(.data);

    .bss (NOLOAD) : {
        . = ALIGN(4);
        bss_start = .;
        *(.bss .bss.* COMMON)
        . = ALIGN(4);
        bss_end = .;
    } > RAM

    end = .; /* where a C library would have its heap */
}
