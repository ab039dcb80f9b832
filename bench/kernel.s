# What kernels do: calls from page to page, interrupts held off by Status, copies, switches between two tasks, refills, and a tick of
# the clock. Each function has a page of its own, and so have the handlers.
        .set    noreorder
        .set    noat
        j       begin
        nop
        .org    0x100                   # the refill of a page of kuseg
        mfc0    $26, $4
        mfc0    $27, $14
        lw      $26, 0($26)
        nop
        mtc0    $26, $2
        nop
        tlbwr
        jr      $27
        rfe
        .org    0x180                   # a tick, each 8192 steps
        lui     $26, 0xbfe8
        lw      $27, 48($26)            # C: the read clears its flags
        mfc0    $26, $14
        addu    $17, $17, $27
        addiu   $18, $18, 1
        jr      $26
        rfe
begin:  lui     $1, 0xbfe8              # the clock
        ori     $2, $0, 0x16
        sw      $2, 44($1)              # B: an interrupt each second, which is 8192 steps
        lui     $2, 0x8020              # the page table, at physical 0x200000
        mtc0    $2, $4                  # Context
        lui     $3, 0x30
        ori     $3, $3, 0x600           # frame 0x300, valid and dirty
        addiu   $4, $0, 256
        addiu   $6, $2, 0x400           # of page 0x100
table:  sw      $3, 0($6)
        addiu   $6, $6, 4
        addiu   $4, $4, -1
        bne     $4, $0, table
        addiu   $3, $3, 0x1000
        lui     $19, 0x8001             # two tasks
        ori     $20, $19, 0x100
        lui     $21, 0x8002             # what is copied
        lui     $22, 0x10               # pages of kuseg
        lui     $2, 0x40
        ori     $2, $2, 0x801
        mtc0    $2, $12                 # Status: the clock's interrupt, with the vectors in ROM
        lui     $2, 0x9fc0              # on in kseg0
        ori     $2, $2, 0x1000
        jr      $2
        nop
        .org    0x1000
turn:   jal     queue
        addiu   $4, $4, 1
        jal     copy
        addiu   $5, $0, 4
        jal     queue
        nop
        jal     touch
        nop
        andi    $2, $4, 7
        bne     $2, $0, turn
        nop
        jal     switch
        nop
        j       turn
        nop
        .org    0x2000
queue:  mfc0    $8, $12                 # with interrupts held off
        addiu   $9, $0, -2
        and     $9, $9, $8
        mtc0    $9, $12
        addu    $23, $31, $0
        jal     link
        lw      $10, 0($21)
        addu    $31, $23, $0
        jr      $31
        mtc0    $8, $12
        .org    0x3000
link:   addiu   $10, $10, 1
        sw      $10, 0($21)
        andi    $11, $10, 63
        sll     $11, $11, 2
        addu    $11, $11, $21
        jr      $31
        sw      $10, 4($11)
        .org    0x4000
copy:   addu    $12, $21, $0
more:   lw      $13, 4($12)
        lw      $14, 8($12)
        addiu   $5, $5, -1
        sw      $13, 0x404($12)
        sw      $14, 0x408($12)
        bne     $5, $0, more
        addiu   $12, $12, 8
        addu    $24, $31, $0
        jal     sum
        lw      $13, 0x404($21)
        jr      $24
        nop
        .org    0x5000
sum:    addu    $15, $15, $13
        sll     $14, $15, 3
        jr      $31
        xor     $15, $15, $14
        .org    0x6000
touch:  sll     $13, $4, 12             # the next page, of 256
        lui     $14, 0xf
        ori     $14, $14, 0xf000
        and     $13, $13, $14
        addu    $13, $13, $22
        lw      $14, 0($13)
        nop
        addu    $14, $14, $15
        jr      $31
        sw      $14, 4($13)
        .org    0x7000
switch: sw      $4, 0($19)              # saves one task, and goes on with the other
        sw      $15, 4($19)
        sw      $31, 8($19)
        sw      $23, 12($19)
        sw      $24, 16($19)
        lw      $23, 12($20)
        lw      $24, 16($20)
        lw      $15, 4($20)
        addu    $2, $19, $0
        addu    $19, $20, $0
        jr      $31
        addu    $20, $2, $0
