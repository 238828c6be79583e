/* All of a program in one memory from BOARD_START on, which the linker is told; its stack of 64 KiB last. */
SECTIONS
{
    . = BOARD_START;
    .start : { KEEP(*(.start)) }
    /* what copies and fills first, so that no loop of it lies across two pages: an emulator is ten times slower there */
    .text : { *libc*.a:*(.text .text.*) *libc.o(.text .text.*) *(.text .text.*) }
    .rodata : { *(.rodata .rodata.* .srodata .srodata.*) }
    .ARM.exidx : { *(.ARM.exidx* .ARM.extab*) }
    /* in pages of its own: an emulator looks for changed code at each store to a page that has some. Zeros are part of the file: nothing has to be
       cleared at the start */
    .data : ALIGN(4096) { *(.data .data.* .sdata .sdata.*) *(.bss .bss.* .sbss .sbss.* COMMON) BYTE(0) . = ALIGN(16); . += 65536; board_stack = .; }
    /DISCARD/ : { *(.comment) *(.eh_frame*) }
}
