# Makes the timer due, gives msip what is in t1, and enables the three interrupts, the console's
# too, by thirteen instructions. External comes before software, and software before timer
# (Privileged ISA, "Machine Interrupt (mip and mie) Registers").
    li t0, 0x888                # MEIE, MTIE and MSIE, by two instructions
    csrw mie, t0
    li t0, 0x02000000           # msip of hart 0
    li t1, 1
    sw t1, 0(t0)
    li t0, 0x02004000           # mtimecmp of hart 0
    sw zero, 4(t0)
    sw zero, 0(t0)
    li t0, 0x10000000           # the console
    li t1, 1
    sw t1, 12(t0)
    csrrwi zero, mstatus, 8     # MIE
