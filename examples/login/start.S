# From reset to main: the stack, the data, which stands in ROM after the code, and the words that begin as 0.
# The assembler fills the delay slots.
        .section .text.start, "ax"
        .globl  start
        .ent    start
start:
        la      $sp, stack_top
        la      $t0, data_in_rom
        la      $t1, data_start
        la      $t2, data_end
        la      $t3, bss_end
copy:
        beq     $t1, $t2, clear
        lw      $t4, 0($t0)
        sw      $t4, 0($t1)
        addiu   $t0, $t0, 4
        addiu   $t1, $t1, 4
        b       copy
clear:
        beq     $t1, $t3, enter
        sw      $zero, 0($t1)
        addiu   $t1, $t1, 4
        b       clear
enter:
        jal     main
        .end    start

# No exception is expected: whatever comes stays here, to be seen.
        .org    0x100
user_miss:
        b       user_miss
        .org    0x180
exception:
        b       exception
