here: nop
nop
j nowhere
