# Sums, differences, shifts, logic, comparisons and a product: no loads or stores.
        .set    noreorder
        .set    noat
        lui     $1, 0x1234
        ori     $1, $1, 0x5678
        lui     $2, 0x9e37
        ori     $2, $2, 0x79b9
loop:   addu    $1, $1, $2              # mix a number
        sll     $4, $1, 7
        xor     $1, $1, $4
        srl     $4, $1, 9
        xor     $1, $1, $4
        sltu    $5, $1, $2              # count where it is below the constant
        addu    $6, $6, $5
        multu   $1, $2
        mfhi    $7
        subu    $8, $8, $7
        and     $9, $8, $1
        or      $10, $9, $6
        sra     $11, $8, 3
        slt     $12, $11, $10
        addiu   $3, $3, 1
        bne     $3, $0, loop
        addu    $13, $13, $12           # in the delay slot
