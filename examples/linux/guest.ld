/* In RAM, where Linux stands on this machine. */
ENTRY(start)

SECTIONS
{
    . = 0x80040000;
    .text : { *(.text .text.*) *(.rodata .rodata.*) . = ALIGN(4); }
    .bss : { *(.bss .bss.* COMMON) }
    /DISCARD/ : { *(.reginfo .MIPS.abiflags .pdr .mdebug.* .gnu.attributes .eh_frame .comment) }
}
