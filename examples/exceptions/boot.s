# A boot ROM that sets up exception handling, and then takes a system call, an overflow and an address error.
        lui r8, 0xbfc0                  # copy the stub to the general vector in RAM
        ori r8, r8, 0x0068              # where the stub stands in ROM
        lui r9, 0x8000
        ori r9, r9, 0x0080
        addiu r10, r0, 4
copy:
        lw r11, 0(r8)
        addiu r8, r8, 4                 # in the load's delay slot
        sw r11, 0(r9)
        addiu r10, r10, -1
        bne r10, r0, copy
        addiu r9, r9, 4                 # in the branch's delay slot
        lui r16, 0xa000                 # where the handler notes what it sees
        ori r16, r16, 0x1000
        ori r17, r0, 0x0001
        mtc0 r17, c12                   # BEV 0: the vector in RAM from now on; IEc 1
        syscall 0                       # the first exception
        lui r18, 0x7fff
        ori r18, r18, 0xffff
        addi r19, r18, 1                # the second: an overflow, r19 stays 0
        lw r20, 2(r16)                  # the third: an address error
        lw r2, -36(r16)                 # the three codes, each times 4
        lw r3, -24(r16)
        lw r4, -12(r16)
        lw r5, -4(r16)                  # the bad address
done:
        beq r0, r0, done
        addiu r6, r6, 1

# The stub, at 0xbfc00068.
        lui r26, 0xbfc0
        ori r26, r26, 0x0078            # where the handler stands in ROM
        jr r26
        sll r0, r0, 0

# The handler, at 0xbfc00078.
        mfc0 r26, c13                   # Cause
        mfc0 r27, c14                   # EPC
        andi r26, r26, 0x007c           # the code, times 4
        sw r26, 0(r16)
        sw r27, 4(r16)
        mfc0 r26, c8                    # BadVAddr
        addiu r27, r27, 4               # after the instruction
        sw r26, 8(r16)
        addiu r16, r16, 12
        jr r27
        rfe                             # in the jump's delay slot
