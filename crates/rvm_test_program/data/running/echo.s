# Sends what it receives: words of LLVM's assembler.
    .word 0x100002B7            # lui t0, 0x10000
    .word 0x0042A303            # lw t1, 4(t0)
    .word 0xFE034EE3            # blt t1, zero, -4
    .word 0x0062A023            # sw t1, 0(t0)
    .word 0xFF5FF06F            # jal zero, -12
