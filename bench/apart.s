# Echoes what arrives at serial line 0, and folds it into the variable at 0x1000, which the work of each turn goes on with. So runs
# that received other bytes never meet. The work also reads the word at 0x3000, which nothing stores into.
        lui r1, 0xbfe0                  # the serial part, in kseg1
        lui r8, 0xa000                  # RAM, in kseg1
        addiu r2, r0, 0x1000
        sw r2, 8(r1)                    # LPR: the receiver of line 0 is on
        addiu r2, r0, 1
        sw r2, 16(r1)                   # TCR: line 0 may send
        addiu r2, r0, 0x20
        sw r2, 0(r1)                    # CSR: MSE
turn:
        lw r6, 8(r1)                    # RBUF
        addiu r5, r0, 16                # in the load's delay slot
        sll r7, r6, 16
        bgez r7, work                   # DVAL is bit 15
        lw r9, 0x1000(r8)               # in the branch's delay slot
        andi r6, r6, 0xff
        sw r6, 24(r1)                   # TDR: the byte goes out
        sll r9, r9, 1
        addu r9, r9, r6
        sw r9, 0x1000(r8)

# 16 of the 64 words from 0x2000 on
work:
        addu r11, r8, r10
        lw r12, 0x2000(r11)
        lw r13, 0x3000(r8)
        addu r14, r14, r9
        xor r14, r14, r12
        addu r14, r14, r13
        sw r14, 0x2000(r11)
        addiu r10, r10, 4
        addiu r5, r5, -1
        bgtz r5, work
        andi r10, r10, 0xfc             # in the branch's delay slot
        j turn
        sll r0, r0, 0
