# Where a program with picolibc begins, on the chip and on qemu-riscv32. The
# loader has filled .data and .tdata and cleared .bss and .tbss.

        .section .text.start, "ax"
        .globl  _start
_start:
        .option push
        .option norelax
        la      gp, __global_pointer$
        .option pop
        srli    t0, sp, 28              # QEMU's stack is above 256 MiB: it stays
        bnez    t0, 1f
        la      sp, __stack             # the chip's ends at 0, below the program
1:      la      tp, __tls_base          # where picolibc keeps errno
        call    __libc_init_array       # constructors
        li      a0, 0                   # argc
        li      a1, 0                   # argv
        call    main
        call    exit                    # destructors, what is buffered, _exit
