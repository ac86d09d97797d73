# An environment call leads to the handler. It is no retired instruction, but takes a cycle; mepc
# is its own address, and mstatus has MPP 3, and MPIE what MIE was (Privileged ISA, "Environment
# Call and Breakpoint" and "Machine Status Registers").
    lui t0, 0x80001
    csrw mtvec, t0
    ecall

# Keeps minstret, mcycle and mtime as the trap left them, and what the trap tells.
.org 0x80001000
handler:
    csrr a1, minstret           # a1=00000002
    csrr a2, mcycle
    li a3, 0x0200BFF8           # mtime, by two instructions
    lw a3, 0(a3)
    addi a2, a2, -1             # a2=00000003
    addi a3, a3, -4             # a3=00000003
    csrr a4, mcause             # a4=0000000b
    csrr a5, mepc               # a5=80000008
    csrr a6, mtval              # a6=00000000
    csrr a7, mstatus            # a7=00001800
    li t6, 0x00100000           # the halt word
    sw zero, 0(t6)
