# Computation with an immediate.
# The values are those of the public tests of RISC-V (rv32ui); each is in the register that the
# instruction writes.

.org 0x80000010
_start:
    auipc a0, 0x92345           # a0=12345010, of its own address 80000010
    lui a1, 0x92345             # a1=92345000

    la t0, 0x00000000
    addi s0, t0, -241           # s0=ffffff0f

    la t0, 0xFFFFFF0E
    slti s1, t0, -241           # s1=00000001

    la t0, 0x00000000
    slti s2, t0, -241           # s2=00000000

    # the immediate is sign-extended before it is compared as unsigned
    la t0, 0x00000000
    sltiu s3, t0, -241          # s3=00000001

    la t0, 0xFFFFFF0F
    sltiu s4, t0, -241          # s4=00000000

    la t0, 0x00FF0F00
    xori s5, t0, -241           # s5=ff00f00f

    la t0, 0xFF00FF00
    ori s6, t0, -241            # s6=ffffff0f

    la t0, 0xFF00FF00
    andi s7, t0, -241           # s7=ff00ff00

    la t0, 0x21212121
    slli s8, t0, 14             # s8=48484000

    la t0, 0x21212121
    srli s9, t0, 14             # s9=00008484

    la t0, 0x81818181
    srai s10, t0, 14            # s10=fffe0606

    li t6, 0x00100000           # the halt word
    sw zero, 0(t6)
