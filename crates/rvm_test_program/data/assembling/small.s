# A small constant is one instruction; 0x800 is none, since immediates are signed.
li a0, 0x800
li a0, 2047
