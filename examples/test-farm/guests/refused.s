# A test that is refused: it does not lie in RAM.
.equ seed, 1

.org 0x90000000
_start:
    li a0, seed
    j _start
