# Transmits 4097 bytes, 0, 1, 2 and so on, of which the console keeps 4096 for the host; then
# looks at the status and clears it, and sends what it saw. Bit 0 of the status is that a byte
# waits, bit 1 that there is room, and bit 2 that a byte was dropped, which a store with bit 2
# clears (this board's console).
    li t0, 0x10000000           # the console
    li t1, 4097                 # two instructions
    li t2, 0
next:
    sw t2, 0(t0)
    addi t2, t2, 1
    addi t1, t1, -1
    bnez t1, next

    lw t1, 8(t0)                # t1=00000004: dropped, and no room
    li t2, 3
    sw t2, 8(t0)
    lw t2, 8(t0)                # t2=00000004: the same after a store without bit 2
    li a1, 4
    sw a1, 8(t0)
    lw a1, 8(t0)                # a1=00000000

    lw a2, 8(t0)                # a2=00000002: here the host has taken the bytes
    sw t1, 0(t0)
    sw t2, 0(t0)
    sw a1, 0(t0)
    sw a2, 0(t0)
    li t6, 0x00100000           # the halt word
    sw zero, 0(t6)
