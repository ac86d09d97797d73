# mtvec is 0 at reset, where no RAM is, so a trap has no handler. The console takes words: a byte stored to it is a store
# access fault, cause 7, with the address in mtval (Privileged ISA, "Machine Cause" and "Machine Trap Value").
    li a5, 0x10000000           # 80000000
    li a4, 72                   # 80000004
    sb a4, 0(a5)                # 80000008
