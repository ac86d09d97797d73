# Sends each byte that comes to its console, for ever.
#   rvmove asm examples/echo.s echo.elf && rvmove run echo.elf --input README.md
# prints the bytes of README.md, then `steps spent`.

.equ receive, 0x10000004
.equ transmit, 0x10000000

_start:
    li s0, receive
    li s1, transmit
again:
    lw a0, 0(s0)                # the byte, or -1 where none waits
    blt a0, zero, again
    sw a0, 0(s1)
    j again
