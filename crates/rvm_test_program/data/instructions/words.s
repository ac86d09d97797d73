# Quotients and high products in the corners, as words of LLVM's assembler; the script sets a1 to
# a3. Of the smallest number by -1 the quotient is that number and the remainder 0; by zero the
# quotient is all ones and the remainder the dividend (Unprivileged ISA, "Division Operations").
.word 0x02C5C2B3                # div t0, a1, a2      t0=80000000
.word 0x02C5E333                # rem t1, a1, a2      t1=00000000
.word 0x0206D3B3                # divu t2, a3, zero   t2=ffffffff
.word 0x0206F433                # remu s0, a3, zero   s0=00000007
.word 0x02C614B3                # mulh s1, a2, a2     s1=00000000
.word 0x02C62933                # mulhsu s2, a2, a2   s2=ffffffff
.word 0x02C639B3                # mulhu s3, a2, a2    s3=fffffffe
