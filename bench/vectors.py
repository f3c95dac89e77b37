#!/usr/bin/env python3
"""Prints tables of what RV32IM instructions do, for tests.

Each case is one instruction with its operands. GNU as makes its word, qemu-riscv32 runs that word, and what it leaves
in registers and memory is the case's outcome. It is compared with an evaluation of the manual's text (`evaluate`,
below); where they differ, or where crates/test_steps/src/vectors.rt has other tables, the script ends with status 1.

It needs Python 3, qemu-user, gcc-riscv64-unknown-elf and binutils-riscv64-unknown-elf.
"""

import collections
import os
import struct
import subprocess
import sys
import tempfile

KEPT = os.path.join(os.path.dirname(os.path.abspath(__file__)), "../crates/test_steps/src/vectors.rt")

# Where a case's operands and its memory word stand. The operands are loaded from there.
FIRST, SECOND, CELL = 0x3F8, 0x3FC, 0x400
PROLOGUE = ["lw t0, 0x3f8(zero)", "lw t1, 0x3fc(zero)", "addi a0, t0, 0", "addi a7, zero, 93"]
# The sizes of memory, in pages of 4,096 bytes.
PAGE, SMALL, LARGE = 4096, 4, 1024
# The place of the word under test, where its own place doesn't matter, and one with room around it in 16 KiB.
PLACE = 4 * len(PROLOGUE)
NEAR = 0x2C00

ABI = ["zero", "ra", "sp", "gp", "tp", "t0", "t1", "t2", "s0", "s1"]
ABI += [f"a{n}" for n in range(8)] + [f"s{n}" for n in range(2, 12)] + ["t3", "t4", "t5", "t6"]
A0, T0, T1, T6 = 10, 5, 6, 31

MASK = 0xFFFFFFFF
TOP, MAX, ALL = 0x80000000, 0x7FFFFFFF, 0xFFFFFFFF
ODD, EVEN = 0x55555555, 0xAAAAAAAA
STORED = 0x8899AABB

Case = collections.namedtuple("Case", "pages text pc first second memory")
Outcome = collections.namedtuple("Outcome", "next registers memory")


# --- the cases -----------------------------------------------------------------------------------------------------


def registers():
    """Instructions of registers and immediates, each of which writes a0 or x0."""
    sums = [(0, 0), (1, ALL), (MAX, 1), (TOP, TOP), (TOP, ALL), (ALL, ALL), (EVEN, ODD), (0x12345678, 0x9ABCDEF0)]
    signs = [(0, 0), (0, 1), (1, 0), (0, ALL), (ALL, 0), (ALL, ALL), (TOP, MAX), (MAX, TOP), (TOP, 0), (0, TOP)]
    bits = [(0, 0), (0, ALL), (ALL, ALL), (EVEN, ODD), (EVEN, ALL), (TOP, MAX), (0xF0F0F0F0, 0xFF00FF00)]
    shifts = [(TOP | 1, n) for n in (0, 1, 31, 32, 33, 63, TOP, ALL)] + [(MAX, 31), (EVEN, 4), (ALL, 16), (0, 31)]
    products = [
        (0, ALL), (1, ALL), (ALL, 1), (ALL, ALL), (TOP, TOP), (TOP, ALL), (ALL, TOP), (TOP, 1), (1, TOP),
        (MAX, MAX), (MAX, TOP), (TOP, MAX), (EVEN, ODD), (0x10000, 0x10000), (0x12345678, 0x9ABCDEF0),
    ]
    quotients = [
        (0, 0), (5, 0), (-5, 0), (TOP, 0), (ALL, 0), (TOP, ALL), (TOP, 1), (TOP, TOP), (TOP, 2), (MAX, ALL),
        (ALL, TOP), (MAX, TOP), (TOP, MAX), (7, 2), (-7, 2), (7, -2), (-7, -2), (3, 5), (-3, 5), (0, 5), (EVEN, ODD),
    ]
    pairs = {
        "add": sums, "sub": sums, "slt": signs, "sltu": signs, "xor": bits, "or": bits, "and": bits,
        "sll": shifts, "srl": shifts, "sra": shifts,
        "mul": products, "mulh": products, "mulhsu": products, "mulhu": products,
        "div": quotients, "divu": quotients, "rem": quotients, "remu": quotients,
    }  # fmt: skip
    for name, operands in pairs.items():
        for first, second in operands:
            yield f"{name} a0, t0, t1", first, second
    immediates = {
        "addi": [(0, 0), (ALL, 1), (0, -1), (MAX, 1), (TOP, -1), (0, 2047), (0, -2048), (0x800, -2048), (EVEN, 0x555)],
        "slti": [(0, 0), (0, 1), (0, -1), (ALL, 0), (ALL, -1), (TOP, -2048), (MAX, 2047), (-2049, -2048), (2046, 2047)],
        "sltiu": [(0, 0), (0, 1), (1, 1), (0, -1), (ALL, -1), (-2, -1), (-2049, -2048), (-2048, -2048), (TOP, 2047)],
        "xori": [(0, -1), (ALL, -1), (EVEN, 0x555), (TOP, 0), (0, -2048), (ALL, 2047)],
        "ori": [(0, -1), (EVEN, 0x555), (TOP, 0), (0, -2048), (0, 2047)],
        "andi": [(ALL, -1), (EVEN, 0x555), (ALL, 0), (ALL, -2048), (ALL, 2047)],
        "slli": [(TOP | 1, 0), (TOP | 1, 1), (TOP | 1, 31), (ALL, 16), (ODD, 1)],
        "srli": [(TOP | 1, 0), (TOP | 1, 1), (TOP, 31), (ALL, 16), (MAX, 30)],
        "srai": [(TOP | 1, 0), (TOP | 1, 1), (TOP, 31), (ALL, 31), (MAX, 30), (TOP, 4), (EVEN, 1)],
    }
    for name, operands in immediates.items():
        for first, immediate in operands:
            yield f"{name} a0, t0, {immediate}", first, 0
    for name in ("lui", "auipc"):
        for upper in (0, 1, 0x7FFFF, 0x80000, 0xFFFFF, 0x12345, 0xAAAAA):
            yield f"{name} a0, {upper:#x}", 0, 0
    # x0 as an operand, one register in several places, and writes to x0
    yield "add a0, zero, t1", 5, ALL
    yield "sub a0, zero, t0", 1, 0
    yield "sltu a0, zero, t0", 5, 0
    yield "div a0, t0, zero", 5, 5
    yield "mulhu a0, zero, t1", 5, ALL
    yield "add a0, a0, a0", TOP | 1, 0
    yield "sub a0, t1, a0", 1, 3
    yield "sub a0, a0, t1", 1, 3
    yield "xor a0, a0, a0", EVEN, 0
    yield "srai a0, a0, 1", TOP, 0
    yield "add zero, t0, t1", 5, 7
    yield "addi zero, t0, 1", 5, 0
    yield "sub zero, t0, t1", 5, 7
    yield "lui zero, 0xfffff", 5, 0
    yield "auipc zero, 1", 5, 0
    yield "mul zero, t0, t1", 5, 7
    yield "divu zero, t0, zero", 5, 0
    yield "fence", 5, 7
    yield "fence.i", 5, 7
    yield ".word 0x0000000f", 5, 7  # a fence of nothing before nothing


def loads():
    """Loads at and around the cell, with its bytes' top bits set and clear."""
    mixed, other = 0x80FF7F01, 0x7F0180FE
    for name, places in {"lb": 4, "lbu": 4, "lh": 2, "lhu": 2, "lw": 1}.items():
        width = 4 // places
        for memory in (mixed, other):
            for at in range(0, 4, width):
                yield f"{name} a0, {at}(t0)", CELL, memory
        yield f"{name} a0, -2048(t0)", CELL + 2048, mixed
        yield f"{name} a0, 2047(t0)", CELL - 2047, mixed
        yield f"{name} a0, {4 - width}(t0)", CELL - 0, 0xFFFFFFFF
        yield f"{name} a0, 0(a0)", CELL, mixed
        yield f"{name} zero, 0(t0)", CELL, mixed
    yield "lb a0, 1024(zero)", 5, mixed
    yield "lw a0, 1024(zero)", 5, TOP
    yield "lw a0, -4(t0)", CELL + 4, MAX
    yield "lw a0, -1024(t0)", CELL + 1024, EVEN


def stores():
    """Stores of one value to the cell, which is read back whole, and to its neighbours."""
    before = 0x11223344
    for name, width in {"sb": 1, "sh": 2, "sw": 4}.items():
        for at in range(0, 4, width):
            yield f"{name} t1, {at}(t0)", CELL, before
        yield f"{name} t1, -2048(t0)", CELL + 2048, before
        yield f"{name} t1, 2047(t0)", CELL - 2047, before
        yield f"{name} t1, 4(t0)", CELL, before
        yield f"{name} t1, {-width}(t0)", CELL, before
        yield f"{name} t1, {-width}(t0)", CELL + 4, before
        yield f"{name} t0, 0(t0)", CELL, before
        yield f"{name} zero, 0(t0)", CELL, ALL
        yield f"{name} t1, 0(t0)", CELL, 0
        yield f"{name} t1, 0(a0)", CELL, ALL
        yield f"{name} t1, 1024(zero)", 5, before


def branches():
    """Branches, taken and not."""
    equal = [(0, 0), (ALL, ALL), (EVEN, EVEN)]
    unequal = [(0, 1), (TOP, 0), (EVEN, ODD)]
    below = [(ALL, 0), (TOP, MAX), (TOP, ALL), (-2, ALL), (0, 1)]  # signed
    unsigned = [(0, ALL), (MAX, TOP), (TOP, ALL), (-2, ALL), (0, 1)]
    swapped = lambda pairs: [(second, first) for first, second in pairs]
    same = [(TOP, TOP), (ALL, ALL), (0, 0)]
    operands = {
        "beq": equal + unequal, "bne": unequal + equal,
        "blt": below + swapped(below) + same, "bge": below + swapped(below) + same,
        "bltu": unsigned + swapped(unsigned) + same, "bgeu": unsigned + swapped(unsigned) + same,
    }  # fmt: skip
    offsets = [16, -32, 4092, -4096, 2048, 8, -2048, 12]
    for name, pairs in operands.items():
        for at, (first, second) in enumerate(pairs):
            yield f"{name} t0, t1, .{offsets[at % len(offsets)]:+}", first, second
    yield "beq t0, t0, .+8", 1, 2
    yield "bne t0, zero, .+8", 1, 0
    yield "bltu zero, t1, .-32", 0, 1
    # not taken, so that its target doesn't matter
    yield "beq t0, t1, .+6", 0, 1
    yield "bgeu t0, t1, .-4094", 0, 1


def jumps():
    """Jumps, each with its place."""
    near = NEAR
    for offset in (4, 8, -32, 2048, 4096, -4096, 0x1254):
        yield f"jal a0, .{offset:+}", near, 5
    yield "jal zero, .+8", near, 5
    yield "jal ra, .-32", near, 5
    for text, first in (
        ("jalr a0, 0(t0)", 0x2000), ("jalr a0, 0(a0)", 0x2000), ("jalr a0, 2047(a0)", 0x2001),
        ("jalr a0, 1(t0)", 0x2000), ("jalr a0, 0(t0)", 0x2001), ("jalr a0, -1(t0)", 0x2002),
        ("jalr a0, 5(t0)", 0x2000), ("jalr a0, 2047(t0)", 0x2000 - 2047), ("jalr a0, -2048(t0)", 0x2800),
        ("jalr a0, 2047(t0)", -1791), ("jalr a0, 16(t0)", -8), ("jalr zero, 0(t0)", 0x2000),
        ("jalr zero, -3(a0)", 0x2004), ("jalr ra, 4(t0)", 0x2000), ("jalr t0, 4(t0)", 0x2000),
        ("jalr zero, 256(zero)", 5),
    ):  # fmt: skip
        yield text, near, first


def far_jumps():
    """Jumps as far as they go, each with its place."""
    yield "jal a0, .+1048572", 0x100, 5
    yield "jal a0, .-1048576", 0x100100, 5
    yield "jal zero, .+0x55554", 0x100, 5
    yield "jal ra, .-0x55554", 0x100100, 5
    yield "jalr a0, -2048(t0)", NEAR, 0x100800
    yield "jalr a0, 2047(a0)", 0x100100, 0x2001


def all_cases():
    tables = {
        "REGISTERS": [Case(SMALL, text, PLACE, a, b, 0) for text, a, b in registers()],
        "LOADS": [Case(SMALL, text, PLACE, a, 0, memory) for text, a, memory in loads()],
        "STORES": [Case(SMALL, text, PLACE, a, STORED, memory) for text, a, memory in stores()],
        "BRANCHES": [Case(SMALL, text, NEAR, a, b, 0) for text, a, b in branches()],
        "JUMPS": [Case(SMALL, text, pc, a, 0, 0) for text, pc, a in jumps()],
        "FAR_JUMPS": [Case(LARGE, text, pc, a, 0, 0) for text, pc, a in far_jumps()],
    }
    trim = lambda case: case._replace(first=case.first & MASK, second=case.second & MASK)
    return {name: [trim(case) for case in cases] for name, cases in tables.items()}


# --- the words, by GNU as ------------------------------------------------------------------------------------------


def assemble(texts, folder):
    """The words of single instructions; a target is given as `.+offset`."""
    source, linked, flat = (os.path.join(folder, name) for name in ("words.s", "words.elf", "words.bin"))
    # Each stands alone in 4 MiB, so that every target exists.
    with open(source, "w") as file:
        file.write(".option norvc\n.option norelax\n.globl _start\n_start:\n" + "".join(f"{text}\n" for text in texts))
    command = ["riscv64-unknown-elf-gcc", "-march=rv32im_zifencei", "-mabi=ilp32", "-nostdlib", "-static"]
    subprocess.run(command + ["-Wl,-Ttext=0x200000,--no-warn-rwx-segments", source, "-o", linked], check=True)
    subprocess.run(["riscv64-unknown-elf-objcopy", "-O", "binary", "-j", ".text", linked, flat], check=True)
    with open(flat, "rb") as file:
        made = file.read()
    words = [word for (word,) in struct.iter_unpack("<I", made)]
    if len(words) != len(texts):
        sys.exit(f"{len(texts)} instructions gave {len(words)} words")
    return words


# --- the outcome, by qemu ------------------------------------------------------------------------------------------

LANDINGS = 960  # words of a page from which a run can be told
REPORT, REPORT_END = 0x3F0, 0x600
REGISTERS_AT = 0x500


def page(dump):
    """A page whose every word jumps to its end, which prints memory from REPORT on, with the registers in it."""
    words = []
    for at in range(LANDINGS):
        distance = 4 * (LANDINGS - at)
        words.append((distance >> 1 & 0x3FF) << 21 | (distance >> 11 & 1) << 20 | (distance >> 12) << 12 | T6 << 7 | 0x6F)
    return b"".join(struct.pack("<I", word) for word in words + dump).ljust(PAGE, b"\0")


def executable(image):
    header = b"\x7fELF\x01\x01\x01" + bytes(9)
    header += struct.pack("<HHIIIIIHHHHHH", 2, 243, 1, 0, 52, 0, 0, 52, 32, 1, 0, 0, 0)
    return header, struct.pack("<8I", 1, PAGE, 0, 0, len(image), len(image), 7, PAGE)


def run(case, word, prologue, filled, folder):
    """What qemu makes of the prologue and the word, at their place, with the operands in memory."""
    image = bytearray(filled * case.pages)
    code = prologue + [word]
    begin = case.pc - 4 * len(prologue)
    struct.pack_into(f"<{len(code)}I", image, begin, *code)
    image[REPORT:REPORT_END] = bytes(REPORT_END - REPORT)
    struct.pack_into("<3I", image, FIRST, case.first, case.second, case.memory)
    header, table = executable(image)
    header = header[:24] + struct.pack("<I", begin) + header[28:]
    path = os.path.join(folder, "case.elf")
    with open(path, "wb") as file:
        file.write((header + table).ljust(PAGE, b"\0") + image)
    os.chmod(path, 0o755)
    done = subprocess.run(["qemu-riscv32", path], stdout=subprocess.PIPE)
    if done.returncode != 0 or len(done.stdout) != REPORT_END - REPORT:
        sys.exit(f"{case}: qemu ended with status {done.returncode}")
    report = bytes(REPORT) + done.stdout
    registers = list(struct.unpack_from("<32I", report, REGISTERS_AT))
    landing = registers[T6] - 4
    registers[T6] = 0
    return Outcome(landing, registers, report[FIRST:REGISTERS_AT])


# --- the outcome, by the manual ------------------------------------------------------------------------------------


def signed(number, bits=32):
    number &= (1 << bits) - 1
    return number - (1 << bits) if number >> (bits - 1) else number


def divide(a, b):
    """Rounded towards zero."""
    quotient = abs(a) // abs(b)
    return quotient if (a < 0) == (b < 0) else -quotient


OPERATIONS = {
    "add": lambda a, b: a + b, "sub": lambda a, b: a - b, "xor": lambda a, b: a ^ b, "or": lambda a, b: a | b,
    "and": lambda a, b: a & b, "slt": lambda a, b: int(signed(a) < signed(b)), "sltu": lambda a, b: int(a < b),
    "sll": lambda a, b: a << b % 32, "srl": lambda a, b: a >> b % 32, "sra": lambda a, b: signed(a) >> b % 32,
    "mul": lambda a, b: a * b, "mulh": lambda a, b: signed(a) * signed(b) >> 32,
    "mulhsu": lambda a, b: signed(a) * b >> 32, "mulhu": lambda a, b: a * b >> 32,
    "div": lambda a, b: MASK if b == 0 else divide(signed(a), signed(b)),
    "divu": lambda a, b: MASK if b == 0 else a // b,
    "rem": lambda a, b: a if b == 0 else signed(a) - signed(b) * divide(signed(a), signed(b)),
    "remu": lambda a, b: a if b == 0 else a % b,
}  # fmt: skip
CONDITIONS = {
    "beq": lambda a, b: a == b, "bne": lambda a, b: a != b, "blt": lambda a, b: signed(a) < signed(b),
    "bge": lambda a, b: signed(a) >= signed(b), "bltu": lambda a, b: a < b, "bgeu": lambda a, b: a >= b,
}  # fmt: skip
OP_NAMES = {
    (0, 0): "add", (0x20, 0): "sub", (0, 1): "sll", (0, 2): "slt", (0, 3): "sltu", (0, 4): "xor", (0, 5): "srl",
    (0x20, 5): "sra", (0, 6): "or", (0, 7): "and", (1, 0): "mul", (1, 1): "mulh", (1, 2): "mulhsu", (1, 3): "mulhu",
    (1, 4): "div", (1, 5): "divu", (1, 6): "rem", (1, 7): "remu",
}  # fmt: skip
LOADS = {0: ("lb", 1), 1: ("lh", 2), 2: ("lw", 4), 4: ("lbu", 1), 5: ("lhu", 2)}
STORES = {0: ("sb", 1), 1: ("sh", 2), 2: ("sw", 4)}
BRANCHES = {0: "beq", 1: "bne", 4: "blt", 5: "bge", 6: "bltu", 7: "bgeu"}
IMMEDIATE_NAMES = {0: "addi", 2: "slti", 3: "sltiu", 4: "xori", 6: "ori", 7: "andi"}


def evaluate(word, pc, registers, memory):
    """The name of the word's instruction, and what is so after it. The memory is a bytearray, which is written."""
    opcode, rd, funct3 = word & 0x7F, word >> 7 & 31, word >> 12 & 7
    rs1, rs2, funct7 = word >> 15 & 31, word >> 20 & 31, word >> 25
    a, b = registers[rs1], registers[rs2]
    i_imm = signed(word >> 20, 12)
    s_imm = signed(funct7 << 5 | rd, 12)
    b_imm = signed((word >> 31) << 12 | (word >> 7 & 1) << 11 | (word >> 25 & 63) << 5 | (word >> 8 & 15) << 1, 13)
    u_imm = word & 0xFFFFF000
    j_imm = signed(
        (word >> 31) << 20 | (word >> 12 & 255) << 12 | (word >> 20 & 1) << 11 | (word >> 21 & 1023) << 1, 21
    )
    result, following = None, pc + 4
    if opcode == 0x37:
        name, result = "lui", u_imm
    elif opcode == 0x17:
        name, result = "auipc", pc + u_imm
    elif opcode == 0x6F:
        name, result, following = "jal", pc + 4, pc + j_imm
    elif opcode == 0x67 and funct3 == 0:
        name, result, following = "jalr", pc + 4, (a + i_imm) & ~1
    elif opcode == 0x63:
        name = BRANCHES[funct3]
        if CONDITIONS[name](a, b):
            following = pc + b_imm
    elif opcode == 0x03:
        name, width = LOADS[funct3]
        at = (a + i_imm) & MASK
        result = int.from_bytes(memory[at : at + width], "little")
        if not name.endswith("u"):
            result = signed(result, 8 * width)
    elif opcode == 0x23:
        name, width = STORES[funct3]
        at = (a + s_imm) & MASK
        memory[at : at + width] = (b & (1 << 8 * width) - 1).to_bytes(width, "little")
    elif opcode == 0x13 and funct3 in (1, 5):
        operation = OP_NAMES[funct7, funct3]
        name, result = operation + "i", OPERATIONS[operation](a, rs2)
    elif opcode == 0x13:
        name = IMMEDIATE_NAMES[funct3]
        operation = "sltu" if name == "sltiu" else name[:-1]
        result = OPERATIONS[operation](a, i_imm & MASK)
    elif opcode == 0x33:
        name = OP_NAMES[funct7, funct3]
        result = OPERATIONS[name](a, b)
    elif opcode == 0x0F:
        name = {0: "fence", 1: "fence.i"}[funct3]
    else:
        sys.exit(f"{word:08x} isn't evaluated")
    after = list(registers)
    if result is not None and rd != 0:
        after[rd] = result & MASK
    return name, following & MASK, after


def expected(case, word):
    registers = [0] * 32
    registers[T0], registers[T1], registers[A0], registers[17] = case.first, case.second, case.first, 93
    memory = bytearray(0x8000)
    struct.pack_into("<3I", memory, FIRST, case.first, case.second, case.memory)
    name, following, after = evaluate(word, case.pc, registers, memory)
    text = case.text.split()[0]
    if name != text and not text.startswith("."):
        sys.exit(f"{case.text}: {word:08x} is read as {name}")
    return name, Outcome(following, after, bytes(memory[FIRST:REGISTERS_AT]))


# --- the tables ----------------------------------------------------------------------------------------------------


def number(value):
    return f"0x{value >> 16:04x}_{value & 0xFFFF:04x}"


def address(value):
    return f"0x{value:04x}" if value <= 0xFFFF else number(value)


def cell(outcome):
    return struct.unpack_from("<I", outcome.memory, CELL - FIRST)[0]


def row(table, case, word, outcome):
    a0 = outcome.registers[A0]
    first, memory = number(case.first), number(case.memory)
    columns = {
        "REGISTERS": [first, number(case.second), number(a0)],
        "LOADS": [first, memory, number(a0)],
        "STORES": [first, memory, number(cell(outcome))],
        "BRANCHES": [first, number(case.second), address(outcome.next)],
        "JUMPS": [address(case.pc), address(case.first), address(outcome.next), address(a0)],
    }
    return [number(word)] + columns[table.removeprefix("FAR_")]


def main():
    tables = all_cases()
    counts, faults = collections.Counter(), []
    with open(KEPT) as file:
        kept = file.read()
    dump = [f"sw x{n}, {REGISTERS_AT + 4 * n:#x}(zero)" for n in range(32)]
    dump += ["li a0, 1", f"li a1, {REPORT:#x}", f"li a2, {REPORT_END - REPORT:#x}", "li a7, 64", "ecall"]
    dump += ["li a0, 0", "li a7, 93", "ecall"]
    with tempfile.TemporaryDirectory() as folder:
        texts = PROLOGUE + dump + [case.text for cases in tables.values() for case in cases]
        words = assemble(texts, folder)
        prologue, dump, words = words[:4], words[4 : 4 + len(dump)], iter(words[4 + len(dump) :])
        filled = page(dump)
        for table, cases in tables.items():
            rows = []
            for case in cases:
                word = next(words)
                outcome = run(case, word, prologue, filled, folder)
                name, wanted = expected(case, word)
                counts[name] += 1
                if known(outcome) != known(wanted):
                    faults.append(f"{case}: qemu {outcome}, manual {wanted}")
                rows.append(f"    ({', '.join(row(table, case, word, outcome))}), // {case.text}\n")
            kind = "Jump" if "JUMPS" in table else "(u32, u32, u32, u32)"
            text = f"static {table}: [{kind}; {len(rows)}] = [\n{''.join(rows)}];\n"
            print(text)
            if text not in kept:
                faults.append(f"{KEPT}: another table {table}")
    listed = ", ".join(f"{name} {count}" for name, count in counts.items())
    print(f"{sum(counts.values())} cases: {listed}; {len(faults)} faults", *faults, sep="\n", file=sys.stderr)
    sys.exit(1 if faults else 0)


def known(outcome):
    """The outcome but for sp, which qemu begins with a stack."""
    return outcome._replace(registers=[value for at, value in enumerate(outcome.registers) if at != 2])


if __name__ == "__main__":
    main()
