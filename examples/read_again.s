# Stores the letter A at 0x140, in line 5 of memory, and prints that byte three
# times. Of lines 5, 69 and 133 the chip holds two at a time, and so of 6, 70 and
# 134. Line 5 goes out before the first print and before the third, which read it
# again; for the second it is on the chip.
#
# Prints `AAA` and no line feed: `halted 1`, `retired 23`.

        .globl _start
_start: li   t0, 0x140
        lui  t1, 0x1
        add  t1, t1, t0
        lui  t2, 0x2
        add  t2, t2, t0
        li   t3, 65
        sb   t3, 0(t0)
        sb   t3, 64(t0)
        lbu  t4, 0(t1)
        lbu  t4, 64(t1)
        lbu  t4, 0(t2)          # line 5 goes out, changed
        li   a0, 1
        mv   a1, t0
        li   a2, 1
        li   a7, 64             # write
        ecall                   # line 5 comes in
        lbu  t4, 64(t2)         # line 6 goes out, changed
        ecall
        lbu  t4, 0(t1)
        lbu  t4, 0(t2)          # line 5 goes out, not changed
        ecall                   # line 5 comes in
        li   a7, 93             # exit
        ecall
