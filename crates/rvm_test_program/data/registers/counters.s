# A counter that is written counts from the next step on: all ones in its low half are read again
# by the next instruction, and the high half has the carry in the one behind (Privileged ISA,
# "Hardware Performance Monitor"; mtime keeps the same rule on this board).
    li t0, -1

    csrw mcycle, t0
    csrr s0, mcycle             # s0=ffffffff
    csrr s1, mcycleh            # s1=00000001

    csrw minstret, t0
    csrr s2, minstret           # s2=ffffffff
    csrr s3, minstreth          # s3=00000001

    li t1, 0x0200BFF8           # mtime
    sw t0, 0(t1)
    lw s4, 0(t1)                # s4=ffffffff
    lw s5, 4(t1)                # s5=00000001

    li t6, 0x00100000           # the halt word
    sw zero, 0(t6)
