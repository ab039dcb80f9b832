# Calls, returns, and branches of which some are taken.
        .set    noreorder
        .set    noat
        addiu   $8, $0, 5
loop:   jal     odd
        addiu   $4, $4, 1               # the argument, in the delay slot
        beq     $2, $0, even
        addu    $5, $5, $2
        jal     step
        addiu   $6, $6, 3
even:   bne     $4, $0, loop
        xor     $9, $5, $6
odd:    jr      $31                     # whether the argument is odd
        andi    $2, $4, 1
step:   bne     $8, $0, more            # counts down from 5, again and again
        addiu   $8, $8, -1
        addiu   $8, $0, 5
more:   jr      $31
        addu    $7, $7, $8
