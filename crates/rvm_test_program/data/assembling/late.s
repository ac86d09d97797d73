.space 0x1000000
.byte 1
j nowhere
