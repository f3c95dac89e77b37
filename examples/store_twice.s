# Stores the letter A at three places, in lines 5, 69 and 133 of memory, then B at
# the same places. Ends with the byte at 0x140 as its code.
#
# Prints nothing: `halted 66`, `retired 22`.

        .globl _start
_start: li   t0, 0x140
        lui  t1, 0x1
        add  t1, t1, t0
        lui  t2, 0x2
        add  t2, t2, t0
        li   t3, 65
        li   t4, 2
again:  sb   t3, 0(t0)
        sb   t3, 0(t1)
        sb   t3, 0(t2)
        addi t3, t3, 1
        addi t4, t4, -1
        bnez t4, again
        lbu  a0, 0(t0)
        li   a7, 93             # exit
        ecall
