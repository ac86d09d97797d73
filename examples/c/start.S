/* Where each hart begins, with its number in a0. Hart 0 sets gp and a stack, writes zeros where C expects them and
   calls main, whose result halts the board. The others get 16 KiB of stack each below its own and call
   other_main(hart) once that is done, if the program has such a function; else, and after it, they wait for ever. */
.section .text.start
.globl _start
_start:
.option push
.option norelax
    la gp, __global_pointer$
.option pop
    la sp, stack_end
    bnez a0, 4f

    la t0, bss_start
    la t1, bss_end
1:  bgeu t0, t1, 2f
    sw zero, 0(t0)
    addi t0, t0, 4
    j 1b
2:  la t0, is_prepared
    li t1, 1
    sw t1, 0(t0)
    call main
    li t0, 0x00100000
    sw a0, 0(t0)
3:  j 3b

4:  slli t0, a0, 14
    sub sp, sp, t0
    la t0, is_prepared
5:  lw t1, 0(t0)
    beqz t1, 5b
    la t0, other_main
    beqz t0, 6f
    jalr t0
6:  wfi
    j 6b

.weak other_main

.section .data
.balign 4
is_prepared:
    .word 0
