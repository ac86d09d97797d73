# One byte more than a page. Zeros are no instruction.
.space 4097
