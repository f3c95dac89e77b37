# Twenty instructions a round, whatever the data: arithmetic, a multiplication, a branch that the data decides, and
# loads and stores all over 256 KiB. Prints the sum of what it met, four bytes, and exits with the lowest of them.
# 18 instructions stand around the rounds.
        .option norvc
        .option norelax
        .globl  _start
        .text
_start: lui     s0, %hi(table)
        addi    s0, s0, %lo(table)
        lui     s2, 0x40
        addi    s2, s2, -4              # a word's place in the table
        lui     s1, 0x12345             # never 0
        lui     s5, 0x10
        addi    s5, s5, 1
        lui     s6, %hi(rounds)
        addi    s6, s6, %lo(rounds)

round:  slli    t0, s1, 13              # the next of xorshift32
        xor     s1, s1, t0
        srli    t0, s1, 17
        xor     s1, s1, t0
        slli    t0, s1, 5
        xor     s1, s1, t0
        and     t1, s1, s2
        add     t1, t1, s0
        lw      t2, 0(t1)
        add     t2, t2, s1
        sw      t2, 0(t1)
        blt     t2, zero, below
        add     s3, s3, t2
        jal     zero, both
below:  xor     s3, s3, t2
        addi    s3, s3, 1
both:   lbu     t3, 2(t1)
        mul     s3, s3, s5
        add     s3, s3, t3
        sh      s3, 0(t1)
        addi    s6, s6, -1
        bne     s6, zero, round

        sw      s3, 0(s0)
        addi    a0, zero, 1
        addi    a1, s0, 0
        addi    a2, zero, 4
        addi    a7, zero, 64
        ecall
        andi    a0, s3, 255
        addi    a7, zero, 93
        ecall

        .bss
        .balign 64
table:  .space  0x40000
