# Stores a balance of 100 at address 320, which is line 5, pays 30 of it, and ends
# with the balance that it reads back: 70. Line 5 shares its set of the cache with
# lines 69 and 133; loading these two evicts it, so both balances go to memory.
_start: lui  t1, 0x1
        lui  t2, 0x2
        li   t3, 100
        sb   t3, 320(zero)
        lbu  t4, 320(t1)
        lbu  t4, 320(t2)
        lbu  a0, 320(zero)
        addi a0, a0, -30
        sb   a0, 320(zero)
        lbu  t4, 320(t1)
        lbu  t4, 320(t2)
        lbu  a0, 320(zero)
        li   a7, 93
        ecall
