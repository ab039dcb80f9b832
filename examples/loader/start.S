# From reset to main: the stack, the data, which stands in ROM after the code, and the words that begin as 0. And the handler of
# exceptions, which calls `interrupt`. The assembler fills the delay slots of the first part.
        .section .text.start, "ax"
        .globl  start
        .ent    start
start:
        la      $sp, stack_top
        la      $t0, data_in_rom
        la      $t1, data_start
        la      $t2, data_end
        la      $t3, bss_end
copy:
        beq     $t1, $t2, clear
        lw      $t4, 0($t0)
        sw      $t4, 0($t1)
        addiu   $t0, $t0, 4
        addiu   $t1, $t1, 4
        b       copy
clear:
        beq     $t1, $t3, enter
        sw      $zero, 0($t1)
        addiu   $t1, $t1, 4
        b       clear
enter:
        jal     main
        .end    start

# Only interrupts are expected. Whatever else comes stays here, to be seen.
        .globl  fatal
        .org    0x100
fatal:
        b       fatal

        .globl  exception
        .org    0x180
        .set    noat
        .set    noreorder
exception:
        mfc0    $k0, $13
        nop
        andi    $k0, $k0, 0x7c
        bnez    $k0, fatal
        nop
        addiu   $sp, $sp, -88
        sw      $at, 16($sp)
        sw      $v0, 20($sp)
        sw      $v1, 24($sp)
        sw      $a0, 28($sp)
        sw      $a1, 32($sp)
        sw      $a2, 36($sp)
        sw      $a3, 40($sp)
        sw      $t0, 44($sp)
        sw      $t1, 48($sp)
        sw      $t2, 52($sp)
        sw      $t3, 56($sp)
        sw      $t4, 60($sp)
        sw      $t5, 64($sp)
        sw      $t6, 68($sp)
        sw      $t7, 72($sp)
        sw      $t8, 76($sp)
        sw      $t9, 80($sp)
        sw      $ra, 84($sp)
        jal     interrupt
        nop
        lw      $at, 16($sp)
        lw      $v0, 20($sp)
        lw      $v1, 24($sp)
        lw      $a0, 28($sp)
        lw      $a1, 32($sp)
        lw      $a2, 36($sp)
        lw      $a3, 40($sp)
        lw      $t0, 44($sp)
        lw      $t1, 48($sp)
        lw      $t2, 52($sp)
        lw      $t3, 56($sp)
        lw      $t4, 60($sp)
        lw      $t5, 64($sp)
        lw      $t6, 68($sp)
        lw      $t7, 72($sp)
        lw      $t8, 76($sp)
        lw      $t9, 80($sp)
        lw      $ra, 84($sp)
        mfc0    $k0, $14
        addiu   $sp, $sp, 88
        jr      $k0
        rfe
