# The lesser and the greater of the word and a register, in signed and in unsigned order: a
# register s gets the word before, a register a the word after. The first four are those of the
# public tests of RISC-V (rv32ua); in the others the two orders differ.
    li t0, 0x80002000

    li t1, 0x80000000
    sw t1, 0(t0)
    li t1, 0xFFFFF800
    amomin.w s0, t1, (t0)       # s0=80000000
    lw a0, 0(t0)                # a0=80000000

    li t1, 0x80000000
    sw t1, 0(t0)
    li t1, 0xFFFFF800
    amomax.w s1, t1, (t0)       # s1=80000000
    lw a1, 0(t0)                # a1=fffff800

    li t1, 0x80000000
    sw t1, 0(t0)
    li t1, 0xFFFFF800
    amominu.w s2, t1, (t0)      # s2=80000000
    lw a2, 0(t0)                # a2=80000000

    li t1, 0x80000000
    sw t1, 0(t0)
    li t1, 0xFFFFF800
    amomaxu.w s3, t1, (t0)      # s3=80000000
    lw a3, 0(t0)                # a3=fffff800

    li t1, 0x1
    sw t1, 0(t0)
    li t1, 0x80000000
    amomin.w s4, t1, (t0)       # s4=00000001
    lw a4, 0(t0)                # a4=80000000

    li t1, 0x1
    sw t1, 0(t0)
    li t1, 0x80000000
    amomax.w s5, t1, (t0)       # s5=00000001
    lw a5, 0(t0)                # a5=00000001

    li t1, 0x1
    sw t1, 0(t0)
    li t1, 0x80000000
    amominu.w s6, t1, (t0)      # s6=00000001
    lw a6, 0(t0)                # a6=00000001

    li t1, 0x1
    sw t1, 0(t0)
    li t1, 0x80000000
    amomaxu.w s7, t1, (t0)      # s7=00000001
    lw a7, 0(t0)                # a7=80000000

    li t6, 0x00100000           # the halt word
    sw zero, 0(t6)
