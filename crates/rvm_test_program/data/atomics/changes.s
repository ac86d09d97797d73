# Atomic changes: a register s gets the word before, a register a the word after. The values are
# those of the public tests of RISC-V (rv32ua).
    li t0, 0x80002000

    li t1, 0x80000000
    sw t1, 0(t0)
    li t1, 0xFFFFF800
    amoswap.w s0, t1, (t0)      # s0=80000000
    lw a0, 0(t0)                # a0=fffff800

    li t1, 0x80000000
    sw t1, 0(t0)
    li t1, 0xFFFFF800
    amoadd.w s1, t1, (t0)       # s1=80000000
    lw a1, 0(t0)                # a1=7ffff800

    li t1, 0x80000000
    sw t1, 0(t0)
    li t1, 0xFFFFF800
    amoxor.w s2, t1, (t0)       # s2=80000000
    lw a2, 0(t0)                # a2=7ffff800

    li t1, 0x80000000
    sw t1, 0(t0)
    li t1, 0xFFFFF800
    amoand.w s3, t1, (t0)       # s3=80000000
    lw a3, 0(t0)                # a3=80000000

    li t1, 0x80000000
    sw t1, 0(t0)
    li t1, 0xFFFFF800
    amoor.w s4, t1, (t0)        # s4=80000000
    lw a4, 0(t0)                # a4=fffff800

    li t6, 0x00100000           # the halt word
    sw zero, 0(t6)
