# Counts for ever: sends a line with a number of six hexadecimal digits, and makes a pause.
.equ transmit, 0x10000000

_start:
    li s0, 0                    # the number
    li s1, transmit
next:
    li t0, 24
digit:
    addi t0, t0, -4
    srl t1, s0, t0
    andi t1, t1, 15
    li t2, 10
    blt t1, t2, low
    addi t1, t1, 39
low:
    addi t1, t1, 48
    sw t1, 0(s1)
    bnez t0, digit
    li t1, 10
    sw t1, 0(s1)
    li t0, 20000                # the pause
wait:
    addi t0, t0, -1
    bnez t0, wait
    addi s0, s0, 1
    j next
