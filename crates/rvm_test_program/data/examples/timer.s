# Waits for the timer's interrupt, five times, and sends a digit at each.
#   rvmove asm examples/timer.s timer.elf && rvmove run timer.elf
# prints: 12345

.equ transmit, 0x10000000
.equ halt, 0x00100000
.equ mtime, 0x0200BFF8          # rises by one with each step
.equ mtimecmp, 0x02004000       # of hart 0: the timer is pending from this time on
.equ period, 100

_start:
    la t0, handler
    csrw mtvec, t0
    li s0, 0                    # how often the timer came
    li s1, 5                    # how often it shall come
    call set_timer
    li t0, 0x80                 # the timer's bit
    csrw mie, t0
    csrrsi zero, mstatus, 8     # MIE: interrupts are taken
wait:
    wfi
    bne s0, s1, wait
    li a0, 10
    call send
    li t0, halt
    sw zero, 0(t0)

# The timer comes again, a period from now.
set_timer:
    li t0, mtime
    lw t1, 0(t0)
    addi t1, t1, period
    li t0, mtimecmp
    sw t1, 0(t0)
    sw zero, 4(t0)
    ret

# Sends the byte in a0.
send:
    li t0, transmit
    sw a0, 0(t0)
    ret

handler:
    mv s2, ra
    addi s0, s0, 1
    addi a0, s0, 48             # its digit
    call send
    call set_timer
    mv ra, s2
    mret
