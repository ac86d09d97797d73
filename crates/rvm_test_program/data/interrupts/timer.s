# The timer interrupts when it is due: in the step behind these six instructions (Privileged ISA,
# "Machine Timer Registers").
    li t0, 128                  # MTIE
    csrw mie, t0
    csrrwi zero, mstatus, 8     # MIE
    li t1, 0x02004000           # mtimecmp of hart 0
    sw zero, 4(t1)
    sw zero, 0(t1)
