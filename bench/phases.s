# Counts turns of five steps. The interrupt of a byte that arrives at serial line 0 takes 0 to 3 steps less, by the byte's value mod 4,
# and leaves nothing of it. So the runs of all bytes are four, that differ in the phase of the loop.
        lui r1, 0xbfe0                  # the serial part, in kseg1
        lui r8, 0xa000                  # RAM, in kseg1
        lui r9, 0xbfc0
        ori r9, r9, 0x200               # the slide
        addiu r2, r0, 0x1000
        sw r2, 8(r1)                    # LPR: the receiver of line 0 is on
        addiu r2, r0, 0x60
        sw r2, 0(r1)                    # CSR: RIE and MSE
        lui r2, 0x0080
        lui r3, 0xbff0
        sw r2, 0(r3)                    # the board's CSR: the serial part's line
        lui r2, 0x0040
        ori r2, r2, 0x0401
        mtc0 r2, c12                    # Status: BEV, the board's interrupt, IEc
idle:
        addiu r4, r4, 1
        sw r4, 0x1000(r8)
        sll r0, r0, 0
        j idle
        sll r0, r0, 0

# The general vector, with BEV 1
        .org 0x1fc00180
        lw r27, 8(r1)                   # RBUF
        mfc0 r26, c14                   # EPC, in the load's delay slot
        andi r27, r27, 3
        sll r27, r27, 2
        addu r27, r27, r9
        jr r27
        sll r0, r0, 0                   # in the jump's delay slot

# Entered at one of the first four steps
        .org 0x1fc00200
        sll r0, r0, 0
        sll r0, r0, 0
        sll r0, r0, 0
        addu r27, r0, r0
        jr r26
        rfe                             # in the jump's delay slot
