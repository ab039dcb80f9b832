# A load still in its delay slot.
        .org 0x00000100                 # in RAM
        .word 5

        .org 0x1fc00000                 # the ROM, which the processor runs from 0xbfc00000
        lui r1, 0xa000                  # r1 is 0xa0000000, the start of RAM in kseg1
        lw r2, 256(r1)                  # loads the 5, which waits in the load slot
        addu r3, r2, r0                 # reads r2 in the load's delay slot: r3 becomes 0
        addu r4, r2, r0                 # the value has landed: r4 becomes 5
