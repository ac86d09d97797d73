# Writes two words of four, and halts with 0 in its ninth turn.
    la s0, signature            # 80000000, 80000004
    li a0, 0x12345678           # 80000008, 8000000c
    sw a0, 0(s0)                # 80000010
    li a1, -2                   # 80000014
    sb a1, 4(s0)                # 80000018
    li t1, 0x00100000           # the halt word: 8000001c
    sw zero, 0(t1)              # 80000020

    .balign 16
signature:                      # 80000030
    .word 0, 0, 7, 0x89abcdef
