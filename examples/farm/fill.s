# Fills 4096 pages, and then counts as count.s does; in its pause it writes into 16 pages again and again.
.equ transmit, 0x10000000

_start:
    li t0, 0x80001000
    li t1, 0x81000000
    li t2, 0x1000
fill:
    sw t0, 0(t0)
    add t0, t0, t2
    bne t0, t1, fill

    li s0, 0                    # the number
    li s1, transmit
    li s3, 0x80800000           # the pages that are written
next:
    li t0, 24
digit:
    addi t0, t0, -4
    srl t1, s0, t0
    andi t1, t1, 15
    li t2, 10
    blt t1, t2, low
    addi t1, t1, 39
low:
    addi t1, t1, 48
    sw t1, 0(s1)
    bnez t0, digit
    li t1, 10
    sw t1, 0(s1)
    li t0, 20000                # the pause
wait:
    andi t1, t0, 15
    slli t1, t1, 12
    add t1, t1, s3
    sw t0, 4(t1)
    addi t0, t0, -1
    bnez t0, wait
    addi s0, s0, 1
    j next
