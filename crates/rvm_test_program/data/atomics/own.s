# What a hart does to its own reservation between lr.w and sc.w, and whether the sc.w then fails
# (Unprivileged ISA, "Load-Reserved/Store-Conditional Instructions"). Its own stores and atomic
# changes leave it.
    li t0, 0x80002000
    li t2, 0x80002004

    lr.w t1, (t0)
    sw t2, 0(t0)
    sc.w s0, t2, (t0)           # s0=00000000

    lr.w t1, (t0)
    amoadd.w zero, t2, (t0)
    sc.w s1, t2, (t0)           # s1=00000000

    lr.w t1, (t0)
    lr.w zero, (t2)             # each hart holds one word, the last one
    sc.w s2, t2, (t0)           # s2=00000001

    lr.w t1, (t0)
    sc.w zero, t0, (t2)         # an sc.w ends the reservation, also where it is of another word
    sc.w s3, t2, (t0)           # s3=00000001

    lr.w t1, (t0)
    sc.w zero, t2, (t0)
    sc.w s4, t2, (t0)           # s4=00000001

    li t6, 0x00100000           # the halt word
    sw zero, 0(t6)
