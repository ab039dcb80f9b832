# Loads and stores of words and bytes in 256 bytes of RAM, through kseg0 and kseg1.
        .set    noreorder
        .set    noat
        lui     $1, 0x8000
        ori     $1, $1, 0x1000
        lui     $2, 0xa000
        ori     $2, $2, 0x1000
        addiu   $7, $0, 1
loop:   andi    $3, $4, 0xfc            # the next word of the buffer
        addu    $5, $1, $3
        lw      $6, 0($5)
        addu    $8, $2, $3              # in the load's delay slot
        addu    $7, $7, $6
        sw      $7, 4($5)
        lb      $9, 1($8)
        lbu     $10, 5($5)
        addu    $7, $7, $9
        sb      $10, 2($8)
        addiu   $4, $4, 4
        bne     $4, $0, loop
        addu    $7, $7, $10             # in the branch's delay slot
