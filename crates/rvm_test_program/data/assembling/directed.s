# The same with directives and a label, which place nothing.
.text
.globl _start
_start:
lui t0, 0x10000
addi t1, zero, 72
sw t1, 0(t0)
addi t1, zero, 105
sw t1, 0(t0)
addi t1, zero, 10
sw t1, 0(t0)
lui t2, 0x100
sw zero, 0(t2)
