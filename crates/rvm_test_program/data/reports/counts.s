# Counts down from 3, and traps into a handler that halts: thirteen steps of a hart.
    la t0, handler              # 80000000, 80000004
    csrw mtvec, t0              # 80000008
    li a0, 3                    # 8000000c
again:
    addi a0, a0, -1             # 80000010
    bnez a0, again              # 80000014
    ecall                       # 80000018
    nop                         # 8000001c: never

    .balign 4
handler:
    li t1, 0x00100000           # the halt word: 80000020
    sw zero, 0(t1)              # 80000024
    .word 7                     # 80000028: no instruction
