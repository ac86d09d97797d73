.word 1
.org 0x80000000
.byte 0
