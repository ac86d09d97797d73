# Sends a text to the console, byte by byte, and halts the board with 0.
#   rvmove asm examples/hello.s hello.elf && rvmove run hello.elf
# prints: Hello from RISC-V

.equ transmit, 0x10000000       # a store sends the low byte
.equ halt, 0x00100000           # a store halts the board with that status

_start:
    la s0, text
    li s1, transmit
next:
    lbu t0, 0(s0)
    beqz t0, done
    sw t0, 0(s1)
    addi s0, s0, 1
    j next
done:
    li t1, halt
    sw zero, 0(t1)

text:
    .asciz "Hello from RISC-V\n"
