"""The programs that are measured: texts for `chip asm`, and stored files."""

import os

from runs import TOP

# --- a loop over lines: it loads a word of each, adds to it and stores it --------------------------------------------

# A line that is evicted in each round over it is written 127 times, so none is used up.
ROUNDS = 192 * 127
LINES = """
        .globl _start
_start: lui  t0, 1              # the first line
        lui  t2, {behind}              # behind the last one
        li   t1, {rounds}
        mv   t4, t0
again:  lw   t5, 0(t4)
        add  t5, t5, t1
        sw   t5, 0(t4)
        addi t4, t4, 64
        bne  t4, t2, next
        mv   t4, t0
next:   addi t1, t1, -1
        bnez t1, again
        li   a0, 0
        li   a7, 93
        ecall
"""
APART = """
        .globl _start
_start: li   t0, {quarter}      # from page to page
        li   t1, {rounds}
        li   s1, {size}
        li   t3, 128            # the first line of the first page that is used
        li   s0, 3200           # behind the last one
        mv   t6, t3
        add  t2, t3, s1         # behind the last page
        mv   t4, t3
again:  lw   t5, 0(t4)
        add  t5, t5, t1
        sw   t5, 0(t4)
        add  t4, t4, t0
        bne  t4, t2, next
        addi t6, t6, 64
        addi t2, t2, 64
        mv   t4, t6
        bne  t6, s0, next
        mv   t6, t3
        add  t2, t3, s1
        mv   t4, t3
next:   addi t1, t1, -1
        bnez t1, again
        li   a0, 0
        li   a7, 93
        ecall
"""


def held_lines():
    """64 lines, all of which stay on the chip."""
    return LINES.format(behind=2, rounds=ROUNDS)


def missing_lines():
    """192 lines of three pages, three of each set: each load misses and evicts a dirty line; the counters stay."""
    return LINES.format(behind=4, rounds=ROUNDS)


def far_lines(size):
    """192 lines, 48 of each of four pages a quarter of the memory apart, from page to page: counters and nodes miss too."""
    return APART.format(quarter=size // 4, size=size, rounds=ROUNDS)


# --- a loop whose lines are held -------------------------------------------------------------------------------------

HELD_ROUNDS = 1000 << 12
HELD_RETIRED = 2 + 9 * HELD_ROUNDS + 3
HELD = """
        .globl _start
_start: lui  t0, 1              # the first line
        lui  t1, 1000           # how many rounds
again:  lw   t2, 0(t0)
        add  t2, t2, t1
        sw   t2, 0(t0)
        lw   t3, 64(t0)
        xor  t3, t3, t2
        sw   t3, 68(t0)
        add  t4, t4, t3
        addi t1, t1, -1
        bnez t1, again
        li   a0, 0
        li   a7, 93
        ecall
"""

# --- a loop that writes lines back -----------------------------------------------------------------------------------

WEAR_ROUNDS = 128 * 127
WEAR_OVERFLOWS = 127
WEAR_RETIRED = 7 + 10 * WEAR_ROUNDS + 2
WEAR = """
        .globl _start
_start: lui  t0, 1              # the first line that is stored into
        li   t1, {rounds}
        lui  t2, {upper}        # which lines
        addi t2, t2, {lower}
        li   t3, 0
        lui  t6, 2              # how far off the next line of the set is that nothing is stored into
again:  and  t4, t3, t2
        add  t4, t4, t0
        {access}
        add  t4, t4, t6
        lw   t5, 0(t4)
        add  t4, t4, t6
        lw   t5, 0(t4)
        addi t3, t3, 64
        addi t1, t1, -1
        bnez t1, again
        li   a7, 93
        ecall
"""


def wear(stores, lines):
    """Rounds that load or store in one line, or in 128 in turn, and evict it by two others of its set."""
    upper, lower = (0, 0) if lines == 1 else (2, -64)
    return WEAR.format(rounds=WEAR_ROUNDS, upper=upper, lower=lower, access="sw   t1, 0(t4)" if stores else "lw   t5, 0(t4)")


# Three stores into lines of one set, for ever: each misses and evicts a dirty line.
THRASH = """
        .globl _start
_start: lui  t0, 1
        lui  t1, 2
        lui  t2, 3
again:  sw   t3, 0(t0)
        sw   t3, 0(t1)
        sw   t3, 0(t2)
        j    again
"""

# --- programs of C, C++ and Rust -------------------------------------------------------------------------------------

INPUT = os.path.join(TOP, "bench/loop.s")  # what those that read read
COMPILED = ["sort_lines.elf", "rust/primes.elf", "picolibc/table.elf", "picolibc/shapes.elf", "picolibc/sort_words.elf"]


def compiled():
    """Name and path of those that are built (`make -C examples/picolibc`, `make -C examples/rust`)."""
    paths = [(name.removesuffix(".elf"), os.path.join(TOP, "examples", name)) for name in COMPILED]
    return [(name, path) for name, path in paths if os.path.exists(path)]


def generated_text():
    """The text of the generated programs, of the number 0."""
    with open(os.path.join(TOP, "crates/workload_gen/src/text.rt"), encoding="utf-8") as file:
        return file.read().split('"\\\n')[1].split('";')[0]


GENERATED_RETIRED = 561533
