# Computation with two registers.
# The values are those of the public tests of RISC-V (rv32ui); each is in the register that the
# instruction writes.

    la t0, 0x7FFFFFFF
    la t1, 0x00007FFF
    add s0, t0, t1              # s0=80007ffe

    la t0, 0xFFFFFFFF
    la t1, 0x00000001
    add s1, t0, t1              # s1=00000000

    la t0, 0x80000000
    la t1, 0xFFFF8000
    sub s2, t0, t1              # s2=80008000

    la t0, 0x00000000
    la t1, 0x00000001
    sub s3, t0, t1              # s3=ffffffff

    # a shift looks at the lowest five bits of the amount
    la t0, 0x21212121
    la t1, 0xFFFFFFC7
    sll s4, t0, t1              # s4=90909080

    la t0, 0x21212121
    la t1, 0xFFFFFFC7
    srl s5, t0, t1              # s5=00424242

    la t0, 0x81818181
    la t1, 0xFFFFFFC7
    sra s6, t0, t1              # s6=ff030303

    la t0, 0x80000000
    la t1, 0x00007FFF
    slt s7, t0, t1              # s7=00000001

    la t0, 0x7FFFFFFF
    la t1, 0xFFFF8000
    slt s8, t0, t1              # s8=00000000

    la t0, 0x80000000
    la t1, 0x00007FFF
    sltu s9, t0, t1             # s9=00000000

    la t0, 0x7FFFFFFF
    la t1, 0xFFFF8000
    sltu s10, t0, t1            # s10=00000001

    la t0, 0x00000007
    la t1, 0x00000007
    sltu s11, t0, t1            # s11=00000000

    la t0, 0xFF00FF00
    la t1, 0x0F0F0F0F
    xor a0, t0, t1              # a0=f00ff00f

    la t0, 0xFF00FF00
    la t1, 0x0F0F0F0F
    or a1, t0, t1               # a1=ff0fff0f

    la t0, 0xFF00FF00
    la t1, 0x0F0F0F0F
    and a2, t0, t1              # a2=0f000f00

    li t6, 0x00100000           # the halt word
    sw zero, 0(t6)
