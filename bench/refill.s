# Loads and stores of 256 pages of kuseg in turn, each of them once in a hundred steps: it is not among the entries, and the
# handler refills it. The page table stands at physical 0x200000, and maps the pages from 0x100 on to frames from 0x300 on.
        .set    noreorder
        .set    noat
        la      $10, code               # the handler, to physical 0, through kseg1
        la      $11, end
        lui     $12, 0xa000
copy:   lw      $13, 0($10)
        addiu   $10, $10, 4
        sw      $13, 0($12)
        bne     $10, $11, copy
        addiu   $12, $12, 4
        lui     $12, 0xa020             # the page table
        ori     $12, $12, 0x400
        lui     $13, 0x30
        ori     $13, $13, 0x600         # frame 0x300, valid and dirty
        addiu   $14, $0, 256
        ori     $15, $0, 0x1000
table:  sw      $13, 0($12)
        addiu   $12, $12, 4
        addiu   $14, $14, -1
        bne     $14, $0, table
        addu    $13, $13, $15
        lui     $12, 0x8020
        mtc0    $12, $4                 # Context
        mtc0    $0, $12                 # Status: handlers stand in RAM
        addiu   $7, $0, 1
        lui     $3, 0x10
        addiu   $1, $3, -1              # the offset in 256 pages
        addu    $5, $3, $0
pages:  lw      $6, 0($5)
        addiu   $2, $0, 27
        addu    $7, $7, $6
        sw      $7, 4($5)
inner:  addiu   $2, $2, -1
        bne     $2, $0, inner
        addu    $7, $7, $2
        addiu   $4, $4, 0x1000
        and     $5, $4, $1
        b       pages
        addu    $5, $5, $3
code:   mfc0    $26, $4
        mfc0    $27, $14
        lw      $26, 0($26)
        nop
        mtc0    $26, $2
        nop
        tlbwr
        jr      $27
        rfe
end:
