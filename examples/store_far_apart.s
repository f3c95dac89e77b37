# Stores the letter A at three places, then B and then C at the same places: in
# lines 2053, 4101 and 6149 of memory, the sixth lines of pages 32, 64 and 96. Of
# these lines the chip holds two at a time, and so of the counter blocks of these
# pages and of the nodes above them. So what is stored goes out with its counters
# and the node above them, and comes in again. Ends with the byte at 0x20140 as
# its code.
#
# Prints nothing: `halted 67`, `retired 26`.

        .globl _start
_start: lui  t0, 0x20
        lui  t1, 0x40
        lui  t2, 0x60
        li   t3, 65
        li   t4, 3
again:  sb   t3, 320(t0)
        sb   t3, 320(t1)
        sb   t3, 320(t2)
        addi t3, t3, 1
        addi t4, t4, -1
        bnez t4, again
        lbu  a0, 320(t0)
        li   a7, 93             # exit
        ecall
