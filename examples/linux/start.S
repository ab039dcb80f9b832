# From reset to boot of prom.c, and the vectors of exceptions while BEV of Status is 1. The assembler fills the delay slots.
        .section .text.start, "ax"
        .globl  start
        .ent    start
start:
        la      $sp, 0x80028000                 # below what Linux writes before it has a stack of its own
        jal     boot
        .end    start

        .org    0x100
        la      $a0, user_miss
        b       exception
        .org    0x180
        la      $a0, general
exception:
        mfc0    $a1, $13                        # Cause
        mfc0    $a2, $14                        # EPC
        mfc0    $a3, $8                         # BadVAddr
        jal     fault

user_miss:
        .asciz  "user miss"
general:
        .asciz  "exception"
        .align  2

# Where the kernel begins. A patch of the image sets it.
        .globl  boot_entry
boot_entry:
        .word   0
