# Stores a byte into three pages, reads a byte of two pages that nothing was
# ever stored into, and at last the byte at 0x140, which is its code.
#
# The byte at 0x140 is in line 5, which shares a set with the other lines that are
# stored into. The counter blocks of pages 0, 16 and 32 share a set too. So the line
# and the counter block of page 0 are evicted, and the last load reads both.
#
# Prints nothing: `halted 64` (the lowest byte of 0x140), `retired 15`.

        .globl _start
_start: li   t0, 0x140
        lui  t1, 0x1
        add  t1, t1, t0
        lui  t2, 0x2
        add  t2, t2, t0
        sb   t0, 0(t0)
        sb   t0, 0(t1)
        sb   t0, 0(t2)
        lui  t1, 0x10
        lui  t2, 0x20
        lbu  a0, 128(t1)
        lbu  a0, 128(t2)
        lbu  a0, 0(t0)
        li   a7, 93             # exit
        ecall
