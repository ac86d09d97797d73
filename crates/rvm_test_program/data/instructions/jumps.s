# Two jumps, each over a word that has no row: to run it would be a trap. A jump's link is the
# address behind it. The second jump reads its source before it writes its link, and clears bit 0
# of its target (Unprivileged ISA, "Unconditional Jumps").
    jal t0, landed              # t0=80000004
    .word 0
landed:
    auipc t1, 0
    jalr t1, 13(t1)             # t1=80000010
    .word 0
    li t6, 0x00100000           # the halt word
    sw zero, 0(t6)
