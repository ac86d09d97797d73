# Sends A from hart 0, B from hart 1 and so on, without end: words of LLVM's assembler.
    .word 0x100002B7            # lui t0, 0x10000
    .word 0x04150313            # addi t1, a0, 65
    .word 0x0062A023            # sw t1, 0(t0)
    .word 0xFFDFF06F            # jal zero, -4
