# Transmits 4097 bytes, 0, 1, 2 and so on, of which the console keeps 4096 for the host, and stays where it is.
    li t0, 0x10000000           # the console
    li t1, 4097                 # two instructions
    li t2, 0
next:
    sw t2, 0(t0)
    addi t2, t2, 1
    addi t1, t1, -1
    bnez t1, next
stay:
    j stay
