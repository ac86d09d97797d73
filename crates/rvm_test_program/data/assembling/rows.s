# Each row of the instruction table, and the word that the GNU assembler makes of it.

# Upper immediates and jumps.
    lui s3, 0x9a5c3             # 9a5c39b7
    auipc s3, 0x9a5c3           # 9a5c3997
    jal s3, 0x7ff69336          # b2e699ef
    jalr s3, -1611(a3)          # 9b5689e7

# Branches.
    beq a3, s8, 0x7ffff666      # e5868b63
    bne a3, s8, 0x7ffff66a      # e5869b63
    blt a3, s8, 0x7ffff66e      # e586cb63
    bge a3, s8, 0x7ffff672      # e586db63
    bltu a3, s8, 0x7ffff676     # e586eb63
    bgeu a3, s8, 0x7ffff67a     # e586fb63

# Loads and stores.
    lb s3, -1611(a3)            # 9b568983
    lh s3, -1611(a3)            # 9b569983
    lw s3, -1611(a3)            # 9b56a983
    lbu s3, -1611(a3)           # 9b56c983
    lhu s3, -1611(a3)           # 9b56d983
    sb s8, -1611(a3)            # 9b868aa3
    sh s8, -1611(a3)            # 9b869aa3
    sw s8, -1611(a3)            # 9b86aaa3

# Computation with an immediate.
    addi s3, a3, -1611          # 9b568993
    slti s3, a3, -1611          # 9b56a993
    sltiu s3, a3, -1611         # 9b56b993
    xori s3, a3, -1611          # 9b56c993
    ori s3, a3, -1611           # 9b56e993
    andi s3, a3, -1611          # 9b56f993
    slli s3, a3, 22             # 01669993
    srli s3, a3, 22             # 0166d993
    srai s3, a3, 22             # 4166d993

# Computation with two registers.
    add s3, a3, s8              # 018689b3
    sub s3, a3, s8              # 418689b3
    sll s3, a3, s8              # 018699b3
    slt s3, a3, s8              # 0186a9b3
    sltu s3, a3, s8             # 0186b9b3
    xor s3, a3, s8              # 0186c9b3
    srl s3, a3, s8              # 0186d9b3
    sra s3, a3, s8              # 4186d9b3
    or s3, a3, s8               # 0186e9b3
    and s3, a3, s8              # 0186f9b3

# Products and quotients.
    mul s3, a3, s8              # 038689b3
    mulh s3, a3, s8             # 038699b3
    mulhsu s3, a3, s8           # 0386a9b3
    mulhu s3, a3, s8            # 0386b9b3
    div s3, a3, s8              # 0386c9b3
    divu s3, a3, s8             # 0386d9b3
    rem s3, a3, s8              # 0386e9b3
    remu s3, a3, s8             # 0386f9b3

# Fences, whose other fields have no text, and the environment.
    .word 0x9b56898f            # 9b56898f
    .word 0x9b56998f            # 9b56998f
    ecall                       # 00000073
    ebreak                      # 00100073
    mret                        # 30200073
    wfi                         # 10500073

# Accesses to control and status registers.
    csrrw s3, 0xb1a, a3         # b1a699f3
    csrrs s3, 0xb1a, a3         # b1a6a9f3
    csrrc s3, 0xb1a, a3         # b1a6b9f3
    csrrwi s3, 0xb1a, 22        # b1ab59f3
    csrrsi s3, 0xb1a, 22        # b1ab69f3
    csrrci s3, 0xb1a, 22        # b1ab79f3

# Atomic accesses.
    lr.w.aq s3, (a3)            # 1406a9af
    sc.w s3, s8, (a3)           # 1986a9af
    amoswap.w s3, s8, (a3)      # 0986a9af
    amoadd.w s3, s8, (a3)       # 0186a9af
    amoxor.w s3, s8, (a3)       # 2186a9af
    amoand.w s3, s8, (a3)       # 6186a9af
    amoor.w s3, s8, (a3)        # 4186a9af
    amomin.w s3, s8, (a3)       # 8186a9af
    amomax.w s3, s8, (a3)       # a186a9af
    amominu.w s3, s8, (a3)      # c186a9af
    amomaxu.w s3, s8, (a3)      # e186a9af

# The bits that are 0 above are 1 here.
    jal ra, 0x80096de4          # 4d5960ef
    bne sp, ra, 0x80000ac0      # 1a1116e3
    sw ra, 1333(sp)             # 52112aa3
    lui ra, 0x12345             # 123450b7
    srai ra, sp, 9              # 40915093
    csrrw ra, 0x300, sp         # 300110f3
    lr.w.rl ra, (sp)            # 120120af
    amomaxu.w.aqrl ra, ra, (sp) # e61120af
