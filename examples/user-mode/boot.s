# Boot code that starts a user program through translation entries: its pages are refilled as they are missed, and it makes a
# system call.

# The vector of user misses, 0x80000000: the page's word of the page table becomes an entry.
        .org 0x00000000
        mfc0 r26, c4                    # Context: where the page's word stands in the table
        mfc0 r27, c14                   # EPC: where to go on
        lw r26, 0(r26)
        sll r0, r0, 0                   # in the load's delay slot
        mtc0 r26, c2                    # EntryLo
        sll r0, r0, 0
        tlbwr
        jr r27
        rfe                             # in the jump's delay slot: back to the mode before

# The general vector, 0x80000080: notes the exception, and goes on after it.
        .org 0x00000080
        mfc0 r26, c14                   # EPC
        mfc0 r27, c13                   # Cause
        addiu r26, r26, 4
        andi r27, r27, 0x007c           # the code, times 4
        addu r20, r27, r0
        addiu r21, r21, 1               # how many there were
        jr r26
        rfe

# The user program, at the virtual address 0x00400000.
        .org 0x00010000
        lui r8, 0x0050                  # its data, at 0x00500000
        ori r9, r0, 0x002a
        sw r9, 0(r8)
        lw r10, 0(r8)
        addiu r9, r9, 1                 # in the load's delay slot
        syscall 0
done:
        beq r0, r0, done
        sll r0, r0, 0

# The page table, a word for each page: what EntryLo is to hold.
        .org 0x00201000
        .word 0x00010200                # page 0x00400: frame 0x00010, valid
        .org 0x00201400
        .word 0x00011600                # page 0x00500: frame 0x00011, valid and dirty

# Reset.
        .org 0x1fc00000
        lui r8, 0x8020
        mtc0 r8, c4                     # Context: the page table stands at 0x80200000
        mtc0 r0, c10                    # EntryHi: process 0
        ori r9, r0, 0x0008
        mtc0 r9, c12                    # Status: the mode before is user mode; BEV 0, so the vectors are those in RAM
        lui r10, 0x0040
        jr r10
        rfe                             # in the jump's delay slot: user mode
