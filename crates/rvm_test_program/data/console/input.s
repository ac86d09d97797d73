# Sends the low byte of the status, of seventeen reads of the receive word, and of the status: 03,
# since a byte waits and there is room, the sixteen bytes in their order, ff where none waits, and
# 02.
    li t0, 0x10000000           # the console
    lw t1, 8(t0)
    sw t1, 0(t0)
    li t2, 17
next:
    lw t1, 4(t0)
    sw t1, 0(t0)
    addi t2, t2, -1
    bnez t2, next
    lw t1, 8(t0)
    sw t1, 0(t0)
    li t6, 0x00100000           # the halt word
    sw zero, 0(t6)
