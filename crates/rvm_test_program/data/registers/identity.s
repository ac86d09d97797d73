# The registers that tell who made the machine are zero, which means that they are not told
# (Privileged ISA, "Machine Vendor ID Register" and those behind it).
    li s0, 1
    csrr s0, 0xf11              # s0=00000000  mvendorid
    li s1, 1
    csrr s1, 0xf12              # s1=00000000  marchid
    li s2, 1
    csrr s2, 0xf13              # s2=00000000  mimpid
    li s3, 1
    csrr s3, 0xf15              # s3=00000000  mconfigptr
    li t6, 0x00100000           # the halt word
    sw zero, 0(t6)
