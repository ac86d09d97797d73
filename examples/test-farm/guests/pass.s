# A test that passes: the sum of 1 to seed, by a loop and by a product. Halts with 0 if both are the same, else with 1.
.equ seed, 1000
.equ halt, 0x00100000           # a store halts the board with that status

_start:
    li t0, seed
    mv t1, t0
    li t2, 0                    # the sum
add_one:
    add t2, t2, t1
    addi t1, t1, -1
    bnez t1, add_one
    addi t3, t0, 1
    mul t3, t3, t0
    srli t3, t3, 1
    li a0, 0
    beq t2, t3, end
    li a0, 1
end:
    li t4, halt
    sw a0, 0(t4)
