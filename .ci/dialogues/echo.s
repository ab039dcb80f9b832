# The echo program: its loop of 11 steps begins at step 9 and stores RBUF in word 0x100. If a byte has arrived, it also stores 0 in
# word 0x104 and sends the byte.
        lui r1, 0xbfe0
        lui r8, 0xa000
        addiu r4, r0, 4096
        sw r4, 8(r1)
        addiu r5, r0, 1
        sw r5, 16(r1)
        addiu r5, r0, 32
        j 0x1fc01000
        sw r5, 0(r1)
        .org 0x1fc01000
        lw r6, 8(r1)
        sll r0, r0, 0
        sw r6, 256(r8)
        sll r7, r6, 16
        bgez r7, 0x1fc01024
        sll r0, r0, 0
        sw r0, 260(r8)
        j 0x1fc01030
        sw r6, 24(r1)
        sll r0, r0, 0
        sll r0, r0, 0
        sll r0, r0, 0
        j 0x1fc01000
        sll r0, r0, 0
