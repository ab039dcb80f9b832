# Asks the serial part's CSR for a byte, which never comes.
        .set    noreorder
        .set    noat
        lui     $1, 0xbfe0              # the serial part, in kseg1
        ori     $2, $0, 0x1000
        sw      $2, 8($1)               # LPR: the receiver of line 0 is on
        ori     $2, $0, 1
        sw      $2, 16($1)              # TCR: line 0 may send
        ori     $2, $0, 0x20
        sw      $2, 0($1)               # CSR: the scanner is on
        ori     $3, $0, 0x80
loop:   lw      $4, 0($1)
        addiu   $5, $5, 1               # in the load's delay slot
        and     $6, $4, $3              # RDONE
        beq     $6, $0, loop
        addu    $7, $7, $4              # in the branch's delay slot
