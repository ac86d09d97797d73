# Loads from the word 0x80FF7F01, which lies in RAM from its lowest byte on: signs fill what is
# above a byte or half, zeros with lbu and lhu (Unprivileged ISA, "Load and Store Instructions").
    li t0, 0x80002000
    li t1, 0x80FF7F01
    sw t1, 0(t0)
    lb s0, 1(t0)                # s0=0000007f
    lb s1, 2(t0)                # s1=ffffffff
    lb s2, 3(t0)                # s2=ffffff80
    lbu s3, 3(t0)               # s3=00000080
    lh s4, 0(t0)                # s4=00007f01
    lh s5, 2(t0)                # s5=ffff80ff
    lhu s6, 2(t0)               # s6=000080ff
    lw s7, 0(t0)                # s7=80ff7f01
    # before the word there is nothing
    lw s8, -4(t0)               # s8=00000000
    li t6, 0x00100000           # the halt word
    sw zero, 0(t6)
