# A driver by interrupts: what arrives at a serial line is sent back on the same line, from a ring of 16 bytes in RAM, and each
# update of the clock is noted. The main loop counts its turns.
#
# 0x1000  seconds, minutes, hours as the clock had them at its last update, and the count: four words
# 0x1100  the rings of lines 0 to 3, 32 bytes each: 16 bytes, the number of bytes put in so far, and of those taken out
#
# r20 to r22 have the serial part, the clock and 0x1000 in kseg1, and r16 the count. r8 to r13 and r26 are the handler's.
        .bytetime 200
        .unit 1
        .clock 0x58 0 0x59 0 0x23 0 7 0x31 0x12 0x99 0x20 0x02

        lui r20, 0xbfe0
        lui r21, 0xbfe8
        lui r22, 0xa000
        ori r22, r22, 0x1000
        addiu r8, r0, 0x1000            # the receiver of line 0
        addiu r9, r0, 0x1004
lines:
        sw r8, 8(r20)                   # LPR
        addiu r8, r8, 1
        bne r8, r9, lines
        sll r0, r0, 0
        addiu r8, r0, 0x4060
        sw r8, 0(r20)                   # CSR: TIE, RIE and MSE; no line is enabled yet
        lui r8, 0x0080
        lui r9, 0xbff0
        sw r8, 0(r9)                    # the board's CSR: the serial part's line
        addiu r8, r0, 0x0012
        sw r8, 44(r21)                  # B: UIE, BCD, 24 hours
        lui r8, 0x0040
        ori r8, r8, 0x0c01
        mtc0 r8, c12                    # Status: BEV, both interrupt lines, IEc
loop:
        addiu r16, r16, 1
        j loop
        sw r16, 12(r22)                 # in the jump's delay slot

# The general vector, with BEV 1.
        .org 0x1fc00180
        mfc0 r8, c13                    # Cause
        sll r0, r0, 0                   # in the load's delay slot
        andi r8, r8, 0x0800
        beq r8, r0, receive             # not the clock
        sll r0, r0, 0
        lw r8, 48(r21)                  # C: the clock's line goes down
        lw r9, 0(r21)                   # seconds
        lw r10, 8(r21)                  # minutes
        lw r11, 16(r21)                 # hours
        sw r9, 0(r22)
        sw r10, 4(r22)
        sw r11, 8(r22)

# All bytes that are there go into the rings, and their lines may send. A byte for a full ring is dropped.
receive:
        lw r8, 8(r20)                   # RBUF
        sll r0, r0, 0
        sll r9, r8, 16
        bgez r9, send                   # DVAL is bit 15
        srl r9, r8, 8
        andi r9, r9, 3                  # the line
        sll r10, r9, 5
        addu r10, r10, r22              # its ring is 0x100 further
        lw r11, 0x110(r10)              # put in
        lw r12, 0x114(r10)              # taken out
        andi r13, r11, 15
        subu r12, r11, r12
        sltiu r12, r12, 16
        beq r12, r0, receive
        addu r13, r13, r10
        sb r8, 0x100(r13)
        addiu r11, r11, 1
        sw r11, 0x110(r10)
        lw r11, 16(r20)                 # TCR
        addiu r12, r0, 1
        sllv r12, r12, r9
        or r11, r11, r12
        j receive
        sw r11, 16(r20)

# If a line waits for a byte it gets one. Once its ring is empty it may not send.
send:
        lw r8, 0(r20)                   # CSR
        sll r0, r0, 0
        sll r9, r8, 16
        bgez r9, done                   # TRDY is bit 15
        srl r9, r8, 8
        andi r9, r9, 3                  # TLINE
        sll r10, r9, 5
        addu r10, r10, r22
        lw r12, 0x114(r10)              # taken out
        lw r11, 0x110(r10)              # put in
        andi r13, r12, 15
        addu r13, r13, r10
        lbu r8, 0x100(r13)
        addiu r12, r12, 1
        sw r8, 24(r20)                  # TDR
        bne r11, r12, done
        sw r12, 0x114(r10)
        lw r11, 16(r20)                 # TCR
        addiu r12, r0, 1
        sllv r12, r12, r9
        nor r12, r12, r0
        and r11, r11, r12
        sw r11, 16(r20)
done:
        mfc0 r26, c14                   # EPC
        sll r0, r0, 0
        jr r26
        rfe                             # in the jump's delay slot
