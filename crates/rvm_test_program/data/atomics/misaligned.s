# A misaligned atomic change traps and writes nothing: two words are the same before it, and the
# handler reads both. (This board traps on every misaligned access.)
    la t0, handler
    csrw mtvec, t0
    li t0, 0x80002000
    li t1, 0x12345678
    sw t1, 0(t0)
    sw t1, 4(t0)
    addi t0, t0, 2
    amoadd.w t2, t1, (t0)
.org 0x80001000
handler:
    lw t1, -2(t0)               # t1=12345678
    lw t2, 2(t0)                # t2=12345678
    li t6, 0x00100000           # the halt word
    sw zero, 0(t6)
