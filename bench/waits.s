# Waits for a byte, which never comes: each turn ends as it began.
        .set    noreorder
        .set    noat
        lui     $1, 0xbfe0              # the serial part, in kseg1
        ori     $2, $0, 0x1000
        sw      $2, 8($1)               # LPR: the receiver of line 0 is on
        ori     $2, $0, 1
        sw      $2, 16($1)              # TCR: line 0 may send
        ori     $2, $0, 0x20
        sw      $2, 0($1)               # CSR: the scanner is on
        ori     $3, $0, 0x80
loop:   lw      $4, 0($1)
        nop                             # in the load's delay slot
        and     $5, $4, $3              # RDONE
        beq     $5, $0, loop
        nop                             # in the branch's delay slot
