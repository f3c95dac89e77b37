# Stores 200 times into one line of memory, the first of page 1, and counts the
# stores down there. The chip holds the line from the first store on, so it is
# never written to the memory outside, and its counter stays 0. Ends with 0.
#
# Prints nothing: `halted 0`, `retired 605`. Of these 3 come before the loop
# (`li` of 0x1000 is two instructions), 600 are the loop's and 2 come after it.
# With `--page-limit 0` it ends alike.

        .globl _start
_start: li   t0, 0x1000
        li   t1, 200
again:  sw   t1, 0(t0)
        addi t1, t1, -1
        bnez t1, again
        li   a7, 93             # exit
        ecall
