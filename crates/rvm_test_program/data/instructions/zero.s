# What is written to register zero is gone (Unprivileged ISA, "Programmers' Model").
    li t2, 1
    addi zero, zero, 5          # zero=00000000
    mv t2, zero                 # t2=00000000
    li t6, 0x00100000           # the halt word
    sw zero, 0(t6)
