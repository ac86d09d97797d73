here: nop
nop
.byte 256
