# Words of LLVM's assembler, put at 0x80000000 one after the other, that trap as the first
# instruction does: at reset mtvec is 0, where there is no RAM, so that the next step is a trap of
# its own. Behind each trap the script goes to the next two lines below, which read mepc and
# mtval.
.word 0                         # no instruction

.org 0x80000010
csrr t1, minstret               # t1=00000000
csrr t2, mcycle                 # t2=00000002, the trap and the line before
csrr s0, mepc                   # s0=80000000
csrr a1, mtval                  # a1=00000000
csrr s1, mepc                   # s1=80000000 for 0xFFFFFFFF, which is none either
csrr a2, mtval                  # a2=ffffffff
csrr s2, mepc                   # s2=80000000 for 0x0020006F, jal zero, 2
csrr a3, mtval                  # a3=80000002
csrr s3, mepc                   # s3=80000000 for 0xF1409073, csrw mhartid, ra
csrr a4, mtval                  # a4=f1409073
csrr s4, mepc                   # s4=80000000 for 0x006522AF, amoadd.w t0, t1, (a0)
csrr a5, mtval                  # a5=80000102
csrr s5, mepc                   # s5=00000000 for the fetch from 0
csrr a6, mtval                  # a6=00000000
