# Prints two letters by two calls of `write`, one letter each. The second call
# has its length and its number still in a2 and a7. Ends with the second call's
# answer as its code.
#
# Prints `AB` and no line feed: `halted 1`, `retired 11`.

        .globl _start
_start: la   a1, text
        li   a2, 1
        li   a0, 1
        li   a7, 64             # write
        ecall
        addi a1, a1, 1
        li   a0, 1
        ecall
        li   a7, 93             # exit
        ecall
text:   .ascii "AB"
