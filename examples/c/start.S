# Where a program begins, on the chip and on qemu-riscv32. The loader has filled
# .data and cleared .bss, so only sp and gp are left to set.

        .section .text.start, "ax"
        .globl  _start
_start:
        .option push
        .option norelax
        la      gp, __global_pointer$
        .option pop
        srli    t0, sp, 28              # QEMU's stack is above 256 MiB: it stays
        bnez    t0, 1f
        la      sp, __stack             # the chip's ends at 0, below the program
1:      call    main
        li      a7, 93                  # exit, with what main returned
        ecall
