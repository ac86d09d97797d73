# One step of each kind that a trace tells apart.
    la s0, words                # 80000000, 80000004
    li a0, -2                   # 80000008
    sb a0, 2(s0)                # 8000000c: one byte, fe
    sh a0, 2(s0)                # 80000010: fffe
    lw a1, 0(s0)                # 80000014: fffe0000, little-endian
    amoadd.w a2, a0, (s0)       # 80000018: the old word, and fffdfffe
    lr.w a3, (s0)               # 8000001c
    sc.w a4, a0, (s0)           # 80000020: succeeds, 0
    sc.w a4, a0, (s0)           # 80000024: no reservation, 1
    beqz a4, words              # 80000028: not taken
    add zero, a0, a0            # 8000002c: x0
    csrr a5, mhartid            # 80000030
    la t0, handler              # 80000034, 80000038
    csrw mtvec, t0              # 8000003c
    ecall                       # 80000040

    .balign 4
handler:
    li t1, 0x00100000           # the halt word: 80000044
    sw zero, 0(t1)              # 80000048

    .balign 4
words:
    .word 0
