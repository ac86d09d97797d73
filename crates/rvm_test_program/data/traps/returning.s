# A call from where interrupts are enabled, and nothing can interrupt: in the handler MIE is 0 and
# MPIE has what it was; behind mret MIE is back and MPIE is 1, and MPP stays 3, since there is no
# other mode (Privileged ISA, "Privilege and Global Interrupt-Enable Stack in mstatus register").
    la t0, handler
    csrw mtvec, t0
    csrrwi zero, mstatus, 8
    ecall
    csrr a2, mstatus            # a2=00001888
    li t6, 0x00100000           # the halt word
    sw zero, 0(t6)
.org 0x80001000
handler:
    csrr t0, mepc
    addi t0, t0, 4
    csrw mepc, t0
    csrr a1, mstatus            # a1=00001880
    mret
