# csrr ra, mhartid, as a word of LLVM's assembler.
.word 0xF14020F3
