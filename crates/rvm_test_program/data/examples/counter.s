# Two harts raise one counter 1000 times each by LR and SC, and the last one to end checks it.
#   rvmove asm examples/counter.s counter.elf && rvmove run counter.elf --harts 2
# prints: ok

.equ transmit, 0x10000000
.equ halt, 0x00100000

_start:                         # each hart begins here, with its number in a0
    la s0, counter
    li s1, 1000
again:
    lr.w t0, (s0)
    addi t0, t0, 1
    sc.w t1, t0, (s0)
    bnez t1, again              # another hart wrote it in between
    addi s1, s1, -1
    bnez s1, again

    la t0, ended
    li t1, 1
    amoadd.w t2, t1, (t0)       # how many ended before
    beqz t2, sleep              # the first one only waits

    lw t0, 0(s0)
    li t1, 2000
    li a0, 0x6B6F               # "ok"
    beq t0, t1, tell
    li a0, 0x6F6E               # "no"
tell:
    li t1, transmit
    sw a0, 0(t1)
    srli a0, a0, 8
    sw a0, 0(t1)
    li a0, 10
    sw a0, 0(t1)
    li t1, halt
    sw zero, 0(t1)
sleep:
    wfi
    j sleep

    .balign 4
counter:
    .word 0
ended:
    .word 0
