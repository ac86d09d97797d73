# Products, quotients and remainders.
# The values are those of the public tests of RISC-V (rv32um); each is in the register that the
# instruction writes.

    la t0, 0x00007E00
    la t1, 0xB6DB6DB7
    mul s0, t0, t1              # s0=00001200

    la t0, 0xAAAAAAAB
    la t1, 0x0002FE7D
    mulh s1, t0, t1             # s1=ffff0081

    la t0, 0x0002FE7D
    la t1, 0xAAAAAAAB
    mulhsu s2, t0, t1           # s2=0001fefe

    la t0, 0xAAAAAAAB
    la t1, 0x0002FE7D
    mulhu s3, t0, t1            # s3=0001fefe

    la t0, 0xFFFFFFEC
    la t1, 0x00000006
    div s4, t0, t1              # s4=fffffffd

    la t0, 0xFFFFFFEC
    la t1, 0x00000006
    divu s5, t0, t1             # s5=2aaaaaa7

    la t0, 0xFFFFFFEC
    la t1, 0x00000006
    rem s6, t0, t1              # s6=fffffffe

    la t0, 0xFFFFFFEC
    la t1, 0x00000006
    remu s7, t0, t1             # s7=00000002

    li t6, 0x00100000           # the halt word
    sw zero, 0(t6)
