# Ends with 7, as exit7.s does, but its code is not on the chip when it begins.
# Behind it stand 8 KiB of zeros. The chip holds 128 lines of 64 bytes, and the
# last of these zeros are in a 129th: when they are stored, line 0 goes out. So the
# first fetch reads it from the memory outside.
#
# Prints nothing: `halted 7`, `retired 3`.

        .globl _start
_start: li   a0, 7
        li   a7, 93             # exit
        ecall
        .space 8192
