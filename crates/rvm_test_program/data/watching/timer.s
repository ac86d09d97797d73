# An interrupt without a handler. mtimecmp is set to 0 before interrupts are enabled, so the timer's is taken before the
# instruction after that (Privileged ISA, "Machine Interrupt Registers"; cause 7, mtval 0).
    li t0, 0x02004000           # mtimecmp of hart 0: 80000000
    sw zero, 0(t0)              # 80000004
    sw zero, 4(t0)              # 80000008
    li t1, 0x80                 # MTIE: 8000000c
    csrw mie, t1                # 80000010
    csrrsi zero, mstatus, 8     # MIE: 80000014
    li a0, 1                    # 80000018
