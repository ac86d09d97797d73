# Hart 0 hands a value to hart 1, and makes a mistake: it sets the flag before the value is there. Hart 1 waits for the
# flag, sends the value as a digit, and halts: with 0 if it is 7, else with 1.
.equ halt, 0x00100000           # a store halts the board with that status
.equ console, 0x10000000        # a store sends a byte

_start:
    csrr t0, mhartid            # 80000000
    la s0, flag                 # 80000004, 80000008
    li t1, 7                    # 8000000c
    bnez t0, reader             # 80000010
    li t2, 1                    # 80000014
    sw t2, 0(s0)                # 80000018: the flag
    sw t1, 4(s0)                # 8000001c: the value, too late
spin:
    j spin                      # 80000020
reader:
    lw t2, 0(s0)                # 80000024
    beqz t2, reader             # 80000028
    lw t3, 4(s0)                # 8000002c
    addi t4, t3, 48             # 80000030
    li t5, console              # 80000034
    sw t4, 0(t5)                # 80000038
    xor t3, t3, t1              # 8000003c
    snez t3, t3                 # 80000040
    li t5, halt                 # 80000044
    sw t3, 0(t5)                # 80000048
flag:
    .word 0, 0                  # 8000004c, 80000050
