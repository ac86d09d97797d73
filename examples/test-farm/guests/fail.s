# A test that fails: it halts with 1 + seed mod 200.
.equ seed, 6
.equ halt, 0x00100000           # a store halts the board with that status

_start:
    li t0, seed
    li t1, 200
    remu a0, t0, t1
    addi a0, a0, 1
    li t4, halt
    sw a0, 0(t4)
