# Sums and shifts, with a byte sent each 100 steps, and an interrupt by the clock each 8192.
        .set    noreorder
        .set    noat
        lui     $1, 0xbfe0              # the serial part, in kseg1
        ori     $2, $0, 1
        sw      $2, 16($1)              # TCR: line 0 may send
        ori     $2, $0, 0x20
        sw      $2, 0($1)               # CSR: the scanner is on
        lui     $3, 0xbfe8              # the clock
        ori     $2, $0, 0x16
        sw      $2, 44($3)              # B: an interrupt each second, which is 8192 steps
        lui     $2, 0x40
        ori     $2, $2, 0x801
        mtc0    $2, $12                 # Status: the clock's interrupt, with the vectors in ROM
        lui     $4, 0x9e37
        ori     $4, $4, 0x79b9
turn:   addiu   $2, $0, 6               # a turn takes 4 steps, and 6 times 16
loop:   addu    $5, $5, $4              # mix a number
        sll     $6, $5, 7
        xor     $5, $5, $6
        srl     $6, $5, 9
        xor     $5, $5, $6
        sltu    $7, $5, $4
        addu    $8, $8, $7
        addu    $9, $9, $5
        and     $10, $9, $5
        or      $11, $10, $8
        sra     $12, $9, 3
        slt     $13, $12, $11
        addu    $14, $14, $13
        addiu   $2, $2, -1
        bne     $2, $0, loop
        xor     $15, $14, $9            # in the delay slot
        sw      $15, 24($1)             # TDR
        b       turn
        addiu   $16, $16, 1
        .org    0x180
        lui     $26, 0xbfe8
        lw      $27, 48($26)            # C: the read clears its flags
        mfc0    $26, $14
        addu    $17, $17, $27
        addiu   $18, $18, 1
        jr      $26
        rfe
