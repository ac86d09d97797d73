# Halts in its third step with the low byte of the store, 165, and would then send a byte.
    li t0, 0x00100000           # the halt word
    li t1, 0x1A5
    sw t1, 0(t0)
    li t0, 0x10000000           # the console
    sw t1, 0(t0)
