# From reset to main, for the programs of gdb's test suite. All of it is in RAM: the debugger puts a jump to `_start` at the reset vector.
        .set    noreorder
        .section .vectors, "ax"
refill: b       refill
        nop
        .org    0x80
other:  b       other
        nop

        .section .text.start, "ax"
        .globl  _start
        .ent    _start
_start:
        la      $sp, stack_top
        move    $a0, $zero
        move    $a1, $zero
        move    $ra, $zero
        jal     enter
        nop
        .end    _start
