here: nop
nop
here: nop
