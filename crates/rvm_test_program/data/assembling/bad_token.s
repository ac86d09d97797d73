here: nop
nop
addi a0, a0
