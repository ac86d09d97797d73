# The six instructions of timer.s behind three that name the handler. A step that is interrupted
# takes a cycle and retires nothing; mepc is the instruction that did not run, mtval is 0, and MPIE
# has what MIE was (Privileged ISA, "Machine Interrupt Registers" and "Machine Exception Program
# Counter").
    la t0, handler
    csrw mtvec, t0
    li t0, 128                  # MTIE
    csrw mie, t0
    csrrwi zero, mstatus, 8     # MIE
    li t1, 0x02004000           # mtimecmp of hart 0
    sw zero, 4(t1)
    sw zero, 0(t1)

# Keeps minstret, mcycle and mtime as the trap left them, and what the trap tells.
.org 0x80001000
handler:
    csrr a1, minstret           # a1=00000009
    csrr a2, mcycle
    li a3, 0x0200BFF8           # mtime, by two instructions
    lw a3, 0(a3)
    addi a2, a2, -1             # a2=0000000a
    addi a3, a3, -4             # a3=0000000a
    csrr a4, mcause             # a4=80000007
    csrr a5, mepc               # a5=80000024
    csrr a6, mtval              # a6=00000000
    csrr a7, mstatus            # a7=00001880
    li t6, 0x00100000           # the halt word
    sw zero, 0(t6)
