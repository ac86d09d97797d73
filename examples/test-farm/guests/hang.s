# A test that does not end: it counts on from seed.
.equ seed, 1

_start:
    li t0, seed
count:
    addi t0, t0, 1
    j count
