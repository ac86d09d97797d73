# Four times nothing, and then ra is counted up for ever: words of LLVM's assembler.
    .word 0x00000013            # nop
    .word 0x00000013            # nop
    .word 0x00000013            # nop
    .word 0x00000013            # nop
    .word 0x00108093            # addi ra, ra, 1
    .word 0xFFDFF06F            # jal zero, -4
