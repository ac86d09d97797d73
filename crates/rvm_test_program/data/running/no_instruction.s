# A word without a row: it traps, and then there is nothing at address 0.
.word 0xFFFFFFFF
