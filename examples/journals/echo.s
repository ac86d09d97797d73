# Sends back three bytes, each once it came, keeps the last one in memory, and halts with 0.
    li t0, 0x10000000           # the console
    la s0, last
    li t1, 3
next:
    lw t2, 8(t0)                # bit 0: a byte waits
    andi t2, t2, 1
    beqz t2, next
    lw t2, 4(t0)
    sw t2, 0(s0)
    sw t2, 0(t0)
    addi t1, t1, -1
    bnez t1, next
    li t6, 0x00100000           # the halt word
    sw zero, 0(t6)
last:
    .word 0
