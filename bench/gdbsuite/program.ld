/* Programs of gdb's test suite: vectors, code and data in RAM, the stack at its end. */
ENTRY(_start)
SECTIONS
{
    .vectors 0x80000000 : { KEEP(*(.vectors)) }
    .text 0x80010000 : { *(.text.start) *(.text .text.*) *(.rodata .rodata.*) }
    .data ALIGN(0x1000) : { *(.data .data.*) }
    .bss : { bss_start = .; *(.bss .bss.* .sbss COMMON) . = ALIGN(4); bss_end = .; }
    heap_start = .;
    stack_top = 0x807ffff0;
    /DISCARD/ : { *(.reginfo .MIPS.abiflags .pdr .mdebug.* .gnu.attributes .eh_frame .comment .note.*) }
}
