# CSR instructions give the old value: each changes mscratch from 12 by 10. A register s gets what
# it was, and a register a what it is then (Unprivileged ISA, "Zicsr").
    li t0, 12
    li t1, 10

    csrw mscratch, t0
    csrrw s0, mscratch, t1      # s0=0000000c
    csrr a0, mscratch           # a0=0000000a

    csrw mscratch, t0
    csrrs s1, mscratch, t1      # s1=0000000c
    csrr a1, mscratch           # a1=0000000e

    csrw mscratch, t0
    csrrc s2, mscratch, t1      # s2=0000000c
    csrr a2, mscratch           # a2=00000004

    csrw mscratch, t0
    csrrwi s3, mscratch, 10     # s3=0000000c
    csrr a3, mscratch           # a3=0000000a

    csrw mscratch, t0
    csrrsi s4, mscratch, 10     # s4=0000000c
    csrr a4, mscratch           # a4=0000000e

    csrw mscratch, t0
    csrrci s5, mscratch, 10     # s5=0000000c
    csrr a5, mscratch           # a5=00000004

    li t6, 0x00100000           # the halt word
    sw zero, 0(t6)
