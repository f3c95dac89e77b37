# Stores 200 times into one line of memory, line 69 in page 1, and counts the
# stores down there. Behind each store it loads from lines 133 and 197. The chip
# holds two of these three at a time, so line 69 goes out 200 times, and is written
# to the memory outside each time. Ends with 0.
#
# Prints nothing: `halted 0`, `retired 1009`. Of these 7 come before the loop, 1000
# are the loop's and 2 come after it.
#
# The line's counter ends at 127, so its 128th write raises the page counter of
# page 1 to 1. With `--page-limit 0` it may not rise, and `run` ends at the load
# that needs the line's room: `spent page 1`, `retired 644` (7, 127 times 5, and
# 2), status 6.

        .globl _start
_start: li   t0, 0x1140
        li   t1, 200
        li   t2, 0x2140
        li   t3, 0x3140
again:  sw   t1, 0(t0)
        lw   t4, 0(t2)
        lw   t4, 0(t3)          # line 69 goes out
        addi t1, t1, -1
        bnez t1, again
        li   a7, 93             # exit
        ecall
