# A test that traps without a handler: it stores seed to an address at which there is nothing.
.equ seed, 1

_start:
    li t0, seed
    sw t0, 0(zero)
