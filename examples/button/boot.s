# A button at external line 0. Its interrupt notes in which turn of the main loop it was pressed, waits for its release, and counts it.
#
# 0x1000  the presses, the turns of the main loop at the last one, and the board's CSR at its release: three words
#
# r20 and r21 have the board's CSR and 0x1000 in kseg1, r16 counts turns and r17 presses. r8, r9 and r26 are the handler's.
        lui r20, 0xbff0
        lui r21, 0xa000
        ori r21, r21, 0x1000
        lui r8, 0x0001
        sw r8, 0(r20)                   # external line 0 may interrupt, lines 1 and 2 may not
        lui r8, 0x0040
        ori r8, r8, 0x0401
        mtc0 r8, c12                    # Status: BEV, the board's interrupt line, IEc
loop:
        addiu r16, r16, 1
        j loop
        sll r0, r0, 0                   # in the jump's delay slot

# The general vector, with BEV 1. The line asks for an interrupt as long as it is up.
        .org 0x1fc00180
        sw r16, 4(r21)
wait:
        lw r8, 0(r20)                   # bits 2 to 0 are the levels
        sll r0, r0, 0                   # in the load's delay slot
        andi r9, r8, 1
        bne r9, r0, wait
        sll r0, r0, 0
        addiu r17, r17, 1
        sw r17, 0(r21)
        sw r8, 8(r21)
        mfc0 r26, c14                   # EPC
        sll r0, r0, 0
        jr r26
        rfe                             # in the jump's delay slot
