/* All of it stands in ROM. RAM is the kernel's. */
ENTRY(start)

MEMORY
{
    rom (rx) : ORIGIN = 0xbfc00000, LENGTH = 256K
}

SECTIONS
{
    .text : { *(.text.start) *(.text .text.*) *(.rodata .rodata.*) . = ALIGN(4); } > rom
    .data : { *(.data .data.* .bss .bss.* COMMON) } > rom
    ASSERT(SIZEOF(.data) == 0, "a PROM has nothing that can be written")
    /DISCARD/ : { *(.reginfo .MIPS.abiflags .pdr .mdebug.* .gnu.attributes .eh_frame .comment) }
}
