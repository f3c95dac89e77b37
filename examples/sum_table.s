# Adds up the numbers of a table and prints the sum in decimal. The data stand
# before the code, so the label `_start` says where the program begins.
#
# Prints `sum 1057` and a line feed: `halted 0`, `retired 108`.

        .globl _start

table:  .word 1000, 0x20, -5, 30
behind: .ascii "sum "
digits: .asciz "    \n"
        .align 4

_start: la   t0, table
        la   t1, behind
        li   s0, 0
add_up: lw   t2, 0(t0)
        add  s0, s0, t2
        addi t0, t0, 4
        bne  t0, t1, add_up

        la   t0, digits + 4     # behind the last digit
        li   t1, 10
digit:  remu t2, s0, t1
        addi t2, t2, 48
        addi t0, t0, -1
        sb   t2, (t0)
        divu s0, s0, t1
        bnez s0, digit

        la   a0, behind
        call print
        li   a0, 0
        li   a7, 93             # exit
        ecall

# Prints the bytes from a0 on, up to the first zero.
print:  mv   a1, a0
        li   a2, 0
count:  add  t0, a1, a2
        lbu  t0, (t0)
        beqz t0, counted
        addi a2, a2, 1
        j    count
counted:
        li   a0, 1
        li   a7, 64             # write
        ecall
        ret
