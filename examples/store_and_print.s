# Stores the letter A at six places, in lines 5, 6, 69, 70, 133 and 134 of
# memory, and prints the one at 0x2140. Ends with the byte at 0x140 as its code.
#
# Prints `A` and no line feed: `halted 65`, `retired 20`.

        .globl _start
_start: li   t0, 0x140
        lui  t1, 0x1
        add  t1, t1, t0
        lui  t2, 0x2
        add  t2, t2, t0
        li   t3, 65
        sb   t3, 0(t0)
        sb   t3, 64(t0)
        sb   t3, 0(t1)
        sb   t3, 64(t1)
        sb   t3, 0(t2)
        sb   t3, 64(t2)
        li   a0, 1
        mv   a1, t2
        li   a2, 1
        li   a7, 64             # write
        ecall
        lbu  a0, 0(t0)
        li   a7, 93             # exit
        ecall
