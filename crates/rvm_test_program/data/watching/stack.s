# The handler stores to a stack that is not in RAM: its first instruction traps too.
    la t0, handler              # 80000000, 80000004
    csrw mtvec, t0              # 80000008
    li sp, 0x1000               # 8000000c: one instruction, lui
    ecall                       # 80000010: cause 11, mtval 0

    .balign 4
handler:
    sw t0, 4(sp)
    mret
