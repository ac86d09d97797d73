# Hart 0 reserves a word and then stores 7 there; the sc.w gives 0 where it stored and 1 where it
# did not. In between hart 1 makes one access, with 99 in t1: the line of the same number. A store
# or an atomic change of the reserved word by another hart ends the reservation, whatever its
# size; a load or a reservation of another hart does not, nor does a store beside the word
# (Unprivileged ISA, "Load-Reserved/Store-Conditional Instructions", and this board's choice of
# the reserved set).
    li t0, 0x80002000
    bnez a0, other
    li t1, 7

    sw zero, 0(t0)              # 1
    lr.w t2, (t0)
    sc.w s0, t1, (t0)           # s0=00000000
    lw a1, 0(t0)                # a1=00000007

    sw zero, 0(t0)              # 2
    lr.w t2, (t0)
    sc.w s1, t1, (t0)           # s1=00000001
    lw a2, 0(t0)                # a2=00000063

    sw zero, 0(t0)              # 3
    lr.w t2, (t0)
    sc.w s2, t1, (t0)           # s2=00000001
    lw a3, 0(t0)                # a3=63000000

    sw zero, 0(t0)              # 4
    lr.w t2, (t0)
    sc.w s3, t1, (t0)           # s3=00000000
    lw a4, 0(t0)                # a4=00000007

    sw zero, 0(t0)              # 5
    lr.w t2, (t0)
    sc.w s4, t1, (t0)           # s4=00000001
    lw a5, 0(t0)                # a5=00000063

    sw zero, 0(t0)              # 6
    lr.w t2, (t0)
    sc.w s5, t1, (t0)           # s5=00000000
    lw a6, 0(t0)                # a6=00000007

    sw zero, 0(t0)              # 7
    lr.w t2, (t0)
    sc.w s6, t1, (t0)           # s6=00000000
    lw a7, 0(t0)                # a7=00000007

    li t6, 0x00100000           # the halt word
    sw zero, 0(t6)

other:
    li t1, 99
    lw zero, 0(t0)              # 1
    sw t1, 0(t0)                # 2
    sb t1, 3(t0)                # 3
    sw t1, 4(t0)                # 4
    amoadd.w zero, t1, (t0)     # 5
    lr.w zero, (t0)             # 6: a reservation of its own
    sc.w zero, t1, (t0)         # 7: hart 1 holds none here, so this stores nothing
