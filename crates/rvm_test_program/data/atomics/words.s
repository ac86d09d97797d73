# Two harts and one word, as words of LLVM's assembler. The script sets registers and where hart 1
# begins.
.word 0x100522AF                # lr.w t0, (a0)
.word 0x1875232F                # sc.w t1, t2, (a0)
.word 0x00752023                # sw t2, 0(a0)
