# Echoes what arrives at serial line 0, by polling. What RBUF gave last stands in word 0x100, and word 0x104 is written where a
# byte was there.
        lui r1, 0xbfe0                  # the serial part, in kseg1
        lui r8, 0xa000                  # RAM, in kseg1
        addiu r4, r0, 0x1000
        sw r4, 8(r1)                    # LPR: the receiver of line 0 is on
        addiu r5, r0, 0x0001
        sw r5, 16(r1)                   # TCR: line 0 may send
        addiu r5, r0, 0x0020
        j loop
        sw r5, 0(r1)                    # CSR: MSE, in the jump's delay slot

# A turn takes 11 steps, with a byte and without.
        .org 0x1fc01000
loop:
        lw r6, 8(r1)                    # RBUF
        sll r0, r0, 0                   # in the load's delay slot
        sw r6, 0x100(r8)
        sll r7, r6, 16
        bgez r7, none                   # DVAL is bit 15
        sll r0, r0, 0
        sw r0, 0x104(r8)
        j next
        sw r6, 24(r1)                   # TDR: the byte goes out
none:
        sll r0, r0, 0
        sll r0, r0, 0
        sll r0, r0, 0
next:
        j loop
        sll r0, r0, 0
