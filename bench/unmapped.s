# The loop of mapped.s in kseg0: the same instructions and places in RAM.
        .set    noreorder
        .set    noat
        .include "copied.inc"
        lui     $1, 0x8000
        lui     $14, 0x8000
        ori     $14, $14, 0x2000
        jr      $14
        ori     $1, $1, 0x3000
code:
        .include "loop.inc"
