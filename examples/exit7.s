# Ends with 7.
#
# Prints nothing: `halted 7`, `retired 3`.

        .globl _start
_start: li   a0, 7
        li   a7, 93             # exit
        ecall
