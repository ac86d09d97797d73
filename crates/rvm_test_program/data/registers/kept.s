# What control and status registers keep of all ones (Privileged ISA, "CSR Listing" and the
# sections of the registers, as this machine-mode profile narrows them; no interrupt is pending
# here).
    li t0, -1

    csrw 0x300, t0
    csrr s0, 0x300              # s0=00001888  mstatus: MPP is 3 and cannot be written; MPIE and MIE

    csrw 0x301, t0
    csrr s1, 0x301              # s1=40001101  misa: RV32IMA

    csrw 0x304, t0
    csrr s2, 0x304              # s2=00000888  mie

    csrw 0x305, t0
    csrr s3, 0x305              # s3=fffffffd  mtvec: bit 1 is zero

    csrw 0x310, t0
    csrr s4, 0x310              # s4=00000000  mstatush

    csrw 0x320, t0
    csrr s5, 0x320              # s5=00000000  mcountinhibit

    csrw 0x323, t0
    csrr s6, 0x323              # s6=00000000  mhpmevent3

    csrw 0x33f, t0
    csrr s7, 0x33f              # s7=00000000  mhpmevent31

    csrw 0x340, t0
    csrr s8, 0x340              # s8=ffffffff  mscratch

    csrw 0x341, t0
    csrr s9, 0x341              # s9=fffffffc  mepc: bits 1 and 0 are zero

    csrw 0x342, t0
    csrr s10, 0x342             # s10=ffffffff  mcause

    csrw 0x343, t0
    csrr s11, 0x343             # s11=ffffffff  mtval

    csrw 0x344, t0
    csrr a0, 0x344              # a0=00000000  mip

    csrw 0xb03, t0
    csrr a1, 0xb03              # a1=00000000  mhpmcounter3

    csrw 0xb1f, t0
    csrr a2, 0xb1f              # a2=00000000  mhpmcounter31

    csrw 0xb83, t0
    csrr a3, 0xb83              # a3=00000000  mhpmcounter3h

    csrw 0xb9f, t0
    csrr a4, 0xb9f              # a4=00000000  mhpmcounter31h

    li t6, 0x00100000           # the halt word
    sw zero, 0(t6)
