# What devices hold at reset, on a board of two harts: mtimecmp is all ones, so that no timer is
# due, and behind hart 1's there is none; the console has room.
    li t0, 0x02004000           # mtimecmp of hart 0
    lw s0, 12(t0)               # s0=ffffffff, the high word of hart 1's
    li t1, 0x10000000           # the console
    lw s1, 8(t1)                # s1=00000002
    lw s2, 16(t0)               # traps
