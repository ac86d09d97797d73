# Sends Hi and a line's end, and halts with 0, in nine steps: words of LLVM's assembler, as in
# hi.bin.
    .word 0x100002B7            # lui t0, 0x10000
    .word 0x04800313            # addi t1, zero, 72
    .word 0x0062A023            # sw t1, 0(t0)
    .word 0x06900313            # addi t1, zero, 105
    .word 0x0062A023            # sw t1, 0(t0)
    .word 0x00A00313            # addi t1, zero, 10
    .word 0x0062A023            # sw t1, 0(t0)
    .word 0x001003B7            # lui t2, 0x100
    .word 0x0003A023            # sw zero, 0(t2)
