# Stores of 0xAABBCCDD into the word 0x11111111 change their own bytes alone (Unprivileged ISA,
# "Load and Store Instructions").
    li t0, 0x80002000
    li t1, 0x11111111
    li t2, 0xAABBCCDD

    sw t1, 0(t0)
    sb t2, 1(t0)
    lw s0, 0(t0)                # s0=1111dd11

    sw t1, 0(t0)
    sh t2, 2(t0)
    lw s1, 0(t0)                # s1=ccdd1111

    sw t1, 0(t0)
    sw t2, 0(t0)
    lw s2, 0(t0)                # s2=aabbccdd

    li t6, 0x00100000           # the halt word
    sw zero, 0(t6)
