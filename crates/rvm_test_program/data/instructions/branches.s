# Branches. A register stays 0 where the branch over its addi is taken, and gets 1 where it is not.
# The cases are those of the public tests of RISC-V (rv32ui); -1 is the greatest unsigned number.
    li t1, 1
    li t2, -1

    beq t1, t1, over_0          # 1 and 1
    addi s0, s0, 1              # s0=00000000
over_0:

    beq t1, t2, over_1          # 1 and -1
    addi s1, s1, 1              # s1=00000001
over_1:

    bne t1, t2, over_2          # 1 and -1
    addi s2, s2, 1              # s2=00000000
over_2:

    bne t1, t1, over_3          # 1 and 1
    addi s3, s3, 1              # s3=00000001
over_3:

    blt t2, t1, over_4          # -1 and 1
    addi s4, s4, 1              # s4=00000000
over_4:

    blt t1, t1, over_5          # 1 and 1
    addi s5, s5, 1              # s5=00000001
over_5:

    bge t1, t2, over_6          # 1 and -1
    addi s6, s6, 1              # s6=00000000
over_6:

    bge t1, t1, over_7          # 1 and 1
    addi s7, s7, 1              # s7=00000000
over_7:

    bge t2, t1, over_8          # -1 and 1
    addi s8, s8, 1              # s8=00000001
over_8:

    bltu t1, t2, over_9         # 1 and -1
    addi s9, s9, 1              # s9=00000000
over_9:

    bltu t2, t1, over_10        # -1 and 1
    addi s10, s10, 1            # s10=00000001
over_10:

    bgeu t2, t1, over_11        # -1 and 1
    addi s11, s11, 1            # s11=00000000
over_11:

    bgeu t1, t1, over_12        # 1 and 1
    addi a0, a0, 1              # a0=00000000
over_12:

    bgeu t1, t2, over_13        # 1 and -1
    addi a1, a1, 1              # a1=00000001
over_13:

    li t6, 0x00100000           # the halt word
    sw zero, 0(t6)
