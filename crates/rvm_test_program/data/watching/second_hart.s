# Hart 1 comes to a word that is no instruction: illegal instruction, cause 2, with the word in mtval. Hart 0 goes on.
    csrr t0, mhartid            # 80000000
    bnez t0, other              # 80000004
spin:
    j spin                      # 80000008
other:
    .word 0xffffffff            # 8000000c
