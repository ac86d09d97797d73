# Each row of the table is what t0 holds and an instruction that traps with it. A line is sent for
# each: the instruction's word, then mcause, mepc, mtval, mstatus, minstret, mcycle and mtime as
# the trap left them. Beside an instruction stand its mcause, mepc and mtval (Privileged ISA,
# "Machine Cause", "Machine Trap Value" and its table of causes; which accesses a device takes is
# this board's choice). mstatus is 00001800 each time, and the three counters are 1, 3 and 4,
# since they are set to 0 before the jump to a row, the last one first, and an instruction that
# traps does not retire.
    la t0, handler
    csrw mtvec, t0
    la s0, table
    la s1, table_end
    li s2, 0x0200BFF8           # mtime
    li s3, 0x10000000           # transmit

next:
    lw t0, 0(s0)
    addi s4, s0, 4
    sw zero, 0(s2)
    csrw mcycle, zero
    csrw minstret, zero
    jr s4

    .balign 4
handler:
    csrr a5, minstret
    csrr a6, mcycle
    lw a7, 0(s2)
    addi a6, a6, -1             # behind the trap there was one step
    addi a7, a7, -2
    lw t1, 0(s4)
    call send
    csrr t1, mcause
    call send
    csrr t1, mepc
    call send
    csrr t1, mtval
    call send
    csrr t1, mstatus
    call send
    mv t1, a5
    call send
    mv t1, a6
    call send
    mv t1, a7
    call send
    li t1, 10
    sw t1, 0(s3)
    addi s0, s0, 8
    bne s0, s1, next
    li t6, 0x00100000           # the halt word
    sw zero, 0(t6)

# Sends a blank and the digits of t1.
send:
    li t2, 32
    sw t2, 0(s3)
    li t2, 28
digit:
    srl t3, t1, t2
    andi t3, t3, 15
    sltiu t4, t3, 10
    addi t3, t3, 48             # 0 to 9
    bnez t4, decimal
    addi t3, t3, 39             # a to f
decimal:
    sw t3, 0(s3)
    addi t2, t2, -4
    bge t2, zero, digit
    ret

.org 0x80001000
table:
    # Words without a row: mtval is the word.
    .word 0x00000000
    .word 0x00000000            # 00000002 80001004 00000000
    .word 0x00000000
    .word 0xFFFFFFFF            # 00000002 8000100c ffffffff
    .word 0x00000000            # csrrw zero, mhartid, ra: a read-only register
    .word 0xF1409073            # 00000002 80001014 f1409073
    .word 0x00000000            # csrrs ra, cycle, zero: a register that is left out
    .word 0xC00020F3            # 00000002 8000101c c00020f3
    .word 0x00000000            # sret: there is no supervisor mode
    .word 0x10200073            # 00000002 80001024 10200073

    # Jumps and calls: mtval is the target; it is 0 for ebreak and ecall.
    .word 0x00000000
    jal t2, 0x8000102E          # 00000000 8000102c 8000102e
    .word 0x00000000
    beq t0, t0, 0x8000102E      # 00000000 80001034 8000102e
    .word 0x80000103            # bit 0 is cleared first
    jalr t2, 0(t0)              # 00000000 8000103c 80000102
    .word 0x80000102
    jalr zero, 0(t0)            # 00000000 80001044 80000102
    .word 0x00000000
    ebreak                      # 00000003 8000104c 00000000
    .word 0x00000000
    ecall                       # 0000000b 80001054 00000000

    # Loads: mtval is the address.
    .word 0x80000102
    lw t2, 0(t0)                # 00000004 8000105c 80000102
    .word 0x80000101
    lh t2, 0(t0)                # 00000004 80001064 80000101
    .word 0x80000103
    lhu t2, 0(t0)               # 00000004 8000106c 80000103
    .word 0x00000001            # alignment is looked at first
    lw t2, 0(t0)                # 00000004 80001074 00000001
    .word 0x80004000            # the end of RAM
    lw t2, 0(t0)                # 00000005 8000107c 80004000
    .word 0x80004000
    lbu t2, 0(t0)               # 00000005 80001084 80004000
    .word 0x10000008            # a device takes words alone
    lb t2, 0(t0)                # 00000005 8000108c 10000008
    .word 0x10000010            # no word of a device
    lw t2, 0(t0)                # 00000005 80001094 10000010
    .word 0x02000004            # there is no hart 1
    lw t2, 0(t0)                # 00000005 8000109c 02000004

    # Stores.
    .word 0x80000102
    sw t1, 0(t0)                # 00000006 800010a4 80000102
    .word 0x80000101
    sh t1, 0(t0)                # 00000006 800010ac 80000101
    .word 0x00000002
    sw t1, 0(t0)                # 00000006 800010b4 00000002
    .word 0x80004000
    sw t1, 0(t0)                # 00000007 800010bc 80004000
    .word 0x80004000
    sb t1, 0(t0)                # 00000007 800010c4 80004000
    .word 0x10000000
    sb t1, 0(t0)                # 00000007 800010cc 10000000
    .word 0x0200C000
    sw t1, 0(t0)                # 00000007 800010d4 0200c000

    # Atomic accesses: but for lr.w they trap as stores.
    .word 0x80000102
    lr.w t2, (t0)               # 00000004 800010dc 80000102
    .word 0x10000008
    lr.w t2, (t0)               # 00000005 800010e4 10000008
    .word 0x80000102
    sc.w t2, t1, (t0)           # 00000006 800010ec 80000102
    .word 0x10000000
    sc.w t2, t1, (t0)           # 00000007 800010f4 10000000
    .word 0x80000102
    amoadd.w t2, t1, (t0)       # 00000006 800010fc 80000102
    .word 0x10000000
    amoadd.w t2, t1, (t0)       # 00000007 80001104 10000000
    .word 0x80004000
    amoswap.w t2, t1, (t0)      # 00000007 8000110c 80004000
table_end:
