# Code, loads and stores in kuseg: code in page 0x10, and three pages of data from 0x11 on.
        .set    noreorder
        .set    noat
        .include "copied.inc"
        ori     $14, $0, 0x2600         # frame 2, valid and dirty
        lui     $15, 1                  # page 0x10
        ori     $16, $0, 0x1000
        addiu   $17, $0, 4
entry:  mtc0    $15, $10                # EntryHi
        mtc0    $14, $2                 # EntryLo
        sll     $18, $17, 8
        mtc0    $18, $0                 # Index
        addu    $15, $15, $16
        tlbwi
        addiu   $17, $17, -1
        bne     $17, $0, entry
        addu    $14, $14, $16
        lui     $14, 1
        lui     $1, 1
        jr      $14
        ori     $1, $1, 0x1000
code:
        .include "loop.inc"
