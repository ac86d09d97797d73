# A handler that works, called twice in a row: each trap is followed by a step of its handler that does not trap.
    la t0, handler
    csrw mtvec, t0
    ecall
    ecall
    li t1, 0x00100000           # the halt word
    sw zero, 0(t1)

    .balign 4
handler:
    csrr t2, mepc
    addi t2, t2, 4
    csrw mepc, t2
    mret
