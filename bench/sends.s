lui r1, 0xbfe0
lui r8, 0xa000
addiu r5, r0, 1
sw r5, 16(r1)
addiu r5, r0, 32
sw r5, 0(r1)
sw r5, 0x2000(r8)
addiu r2, r0, 665
addiu r2, r2, -1
bgtz r2, 0x1fc00020
sll r0, r0, 0
sw r2, 0x1000(r8)
sw r5, 24(r1)
j 0x1fc0001c
sll r0, r0, 0
