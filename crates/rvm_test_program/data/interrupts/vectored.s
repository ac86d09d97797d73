# In vectored mode an exception leads to the handler's base, and the timer's interrupt, number 7,
# to the place 4 * 7 bytes behind it (Privileged ISA, "Machine Trap-Vector Base-Address
# Register"). A second session begins at the timer's lines.
    .equ base, 0x80001000
    li t0, base + 1             # two instructions; bit 0 is the mode
    csrw mtvec, t0
    ecall
timer:
    li t0, 128                  # MTIE
    csrw mie, t0
    csrrwi zero, mstatus, 8     # MIE
    li t1, 0x02004000           # mtimecmp of hart 0
    sw zero, 4(t1)
    sw zero, 0(t1)
    nop
.org base
    li t1, 99
    li t0, 0x00100000           # the halt word
    sw t1, 0(t0)
.org base + 28
    li t1, 7
    li t0, 0x00100000
    sw t1, 0(t0)
