# Sends 0, 1, 2 and so on for ever, as words of LLVM's assembler; the script sets t0, and goes on
# at the fourth line after 4097 bytes.
.word 0x0062A023                # sw t1, 0(t0)
.word 0x00130313                # addi t1, t1, 1
.word 0xFF9FF06F                # jal zero, -8
.word 0x0082A383                # lw t2, 8(t0)        t2=00000004
.word 0x00400493                # addi s1, zero, 4
.word 0x0092A423                # sw s1, 8(t0)
.word 0x0082A903                # lw s2, 8(t0)        s2=00000000
