"""A model of the chip in Python: RV32IM over a memory, and the accesses that the protected memory makes for it.

It shares nothing with the emulator. Single instructions are those of vectors.py, which is compared with QEMU.
accesses.py --check compares the accesses with the program's.
"""

import collections
import struct

from vectors import evaluate

LINE, PAGE, MASK = 64, 4096, 0xFFFFFFFF
DATA = None  # the level of a data line; counter blocks are the nodes of level 0
LAST_LINE_COUNTER = 127
# The sets of each cache, of two ways each.
LINE_SETS, BLOCK_SETS, NODE_SETS = 64, 16, 8
WIDTHS = {0: 1, 1: 2, 2: 4, 4: 1, 5: 2}
LOAD, STORE, BRANCH = 0x03, 0x23, 0x63


# --- the shape of a memory -------------------------------------------------------------------------------------------

# How many children a node has, what a slot keeps of a child's tag, in bytes, and the most levels and those by default.
Layout = collections.namedtuple("Layout", "arity slot most_levels levels")
LAYOUTS = {1: Layout(4, 16, 8, 4), 2: Layout(8, 8, 5, 3)}


class Shape:
    """The layout and the levels of a memory, and what follows from them."""

    def __init__(self, layout=1, levels=None):
        self.layout = layout
        self.arity, self.slot, self.most_levels, by_default = LAYOUTS[layout]
        self.levels = by_default if levels is None else levels
        if not 1 <= self.levels <= self.most_levels:
            raise Refused(f"{self.levels} levels, layout {layout} has 1 to {self.most_levels}")

    @property
    def size(self):
        return PAGE * self.width(0)

    @property
    def lines(self):
        return self.size // LINE

    @property
    def place(self):
        """How many bytes of a line's place may be other than zeros: its ciphertext, and what is kept of its tag."""
        return LINE + self.slot

    @property
    def words(self):
        """The words of a command that ask for it."""
        return ["--levels", str(self.levels)] + (["--layout", str(self.layout)] if self.layout != 1 else [])

    def width(self, level):
        """How many nodes a level has. Those of level 0 are the counter blocks, one a page."""
        return self.arity ** (self.levels - level)

    def parent(self, index):
        return index // self.arity

    def __str__(self):
        return f"{self.levels} levels" + (f" of layout {self.layout}" if self.layout != 1 else "")


def shapes(layout):
    """A memory of each number of levels."""
    return [Shape(layout, levels) for levels in range(1, LAYOUTS[layout].most_levels + 1)]


def place_of(level, index):
    """A place, as scripts and `tampered` name it."""
    return f"data {index}" if level is DATA else f"node {level} {index}"


def name_of(level):
    return {DATA: "data lines", 0: "counter blocks"}.get(level, f"nodes of level {level}")


def listed(number, kind, level, index):
    """The line of an access, by the number that scripts call it by."""
    return f"access {number}: {kind} {place_of(level, index)}"


def size_text(size):
    kib = size // 1024
    return f"{kib} KiB" if kib < 1024 else f"{kib // 1024} MiB"


class Refused(Exception):
    """No such shape, or the file is no program for this memory."""


# --- the accesses ----------------------------------------------------------------------------------------------------


class Cache:
    """Sets of two ways, of each the least recently used first: its place, and whether it is dirty."""

    def __init__(self, sets):
        self.sets = [{} for _ in range(sets)]

    def set_of(self, place):
        return self.sets[place % len(self.sets)]

    def use(self, place, dirty=False):
        """Whether the place hits. Its way is then the most recently used one."""
        ways = self.set_of(place)
        if place in ways:
            ways[place] = ways.pop(place) or dirty
            return True
        return False

    def victim(self, place):
        """The way that is evicted for a place that misses, and whether it is dirty."""
        ways = self.set_of(place)
        return next(iter(ways.items())) if len(ways) == 2 else (None, False)

    def replace(self, victim, place):
        ways = self.set_of(place)
        if victim is not None:
            del ways[victim]
        ways[place] = False


class Memory:
    """The protected memory's caches, and the accesses that it makes. `see(number, kind, level, index)` gets each one."""

    def __init__(self, shape, see=None):
        self.shape, self.see = shape, see
        self.lines = Cache(LINE_SETS)
        self.nodes = [Cache(NODE_SETS if level else BLOCK_SETS) for level in range(shape.levels + 1)]
        self.counters = {}  # the line counter of each line that was written
        self.made = set()  # the level and index of each node that was written; another one is zeros, and is not read
        self.total = 0
        self.count = collections.Counter()  # by kind and level
        self.uses = self.hits = self.overflows = 0

    def touch(self, line, is_store):
        """A fetch, a load or a store in a line."""
        self.uses += 1
        if self.lines.use(line, is_store):
            self.hits += 1
            return
        victim, dirty = self.lines.victim(line)
        if dirty:
            self.write_back(victim)
        self.want(0, line // 64)
        if line in self.counters:
            self.access("read", DATA, line)
        self.lines.replace(victim, line)
        self.lines.use(line, is_store)

    def write_back(self, line):
        self.want(0, line // 64, True)
        if self.counters.get(line, 0) < LAST_LINE_COUNTER:
            self.counters[line] = self.counters.get(line, 0) + 1
            self.access("write", DATA, line)
            return
        self.overflows += 1
        for other in range(line // 64 * 64, line // 64 * 64 + 64):
            if other in self.counters and other != line:
                self.access("read", DATA, other)
            self.access("write", DATA, other)
            self.counters[other] = 0

    def want(self, level, index, dirty=False):
        """A node is on the chip: it hits, or it is fetched once its parent is there. Its victim is written back first."""
        if level > self.shape.levels or self.nodes[level].use(index, dirty):
            return
        victim, is_dirty = self.nodes[level].victim(index)
        if is_dirty:
            self.want(level + 1, self.shape.parent(victim))
            self.access("write", level, victim)
            self.made.add((level, victim))
            self.nodes[level + 1].use(self.shape.parent(victim), True)
        self.want(level + 1, self.shape.parent(index))
        if (level, index) in self.made:
            self.access("read", level, index)
        self.nodes[level].replace(victim, index)
        self.nodes[level].use(index, dirty)

    def access(self, kind, level, index):
        self.total += 1
        self.count[kind, level] += 1
        if self.see:
            self.see(self.total, kind, level, index)


def aes_blocks(count):
    """Each line that is read or written takes one pad, four AES blocks."""
    return 4 * (count["read", DATA] + count["write", DATA])


# --- programs --------------------------------------------------------------------------------------------------------

Program = collections.namedtuple("Program", "entry segments")  # of each segment: address, bytes, length in memory


def read_program(path, is_flat, shape):
    with open(path, "rb") as file:
        data = file.read()
    program = Program(0, [(0, data, len(data))]) if is_flat else of_elf(data)
    for address, _, length in program.segments:
        if address + length > shape.size:
            raise Refused(f"a segment ends at {address + length:#x}, behind a memory of {shape}")
    if program.entry % 4 or program.entry + 4 > shape.size:
        raise Refused(f"the entry {program.entry:#x} is no place of an instruction")
    return program


def of_elf(data):
    if data[:7] != b"\x7fELF\x01\x01\x01" or len(data) < 52:
        raise Refused("no ELF file of 32 bits (--flat for a flat file)")
    if struct.unpack_from("<HH", data, 16) != (2, 243) or data[36] & 1:
        raise Refused("no executable of RV32IM (-march=rv32im -mabi=ilp32 -static)")
    entry, table = struct.unpack_from("<II", data, 24)
    size, number = struct.unpack_from("<HH", data, 42)
    if number and (size != 32 or number > 64 or table + 32 * number > len(data)):
        raise Refused("its table of program headers")
    segments = []
    for at in range(number):
        kind, begin, address, _, stored, length = struct.unpack_from("<6I", data, table + 32 * at)
        if kind == 1:
            if stored > length or stored and begin + stored > len(data):
                raise Refused(f"its segment at {address:#x}")
            segments.append((address, data[begin : begin + stored], length))
    return Program(entry, segments)


# --- the machine -----------------------------------------------------------------------------------------------------


def lines_of(address, length):
    return range(address // LINE, (address + length + LINE - 1) // LINE if length else address // LINE)


class Machine:
    """RV32IM with the four services, over a flat memory. Each line that it uses is a touch of the protected memory."""

    def __init__(self, program, shape, given=b"", see=None):
        self.size = shape.size
        self.bytes = bytearray(self.size)
        self.memory = Memory(shape, see)
        self.pc, self.registers, self.retired = program.entry, [0] * 32, 0
        self.registers[2] = self.size - 64
        self.given, self.output = given, bytearray()
        ends = [address + length for address, _, length in program.segments]
        self.first_break = self.break_ = (max(ends, default=0) + 15) // 16 * 16
        self.is_running = False
        self.store(program)

    def store(self, program):
        """The program's bytes, and then its zeros, through the protected memory."""
        for address, stored, length in program.segments:
            self.bytes[address : address + length] = stored + bytes(length - len(stored))
            self.touch(address, length, True)

    def touch(self, address, length, is_store):
        for line in lines_of(address, length):
            self.memory.touch(line, is_store)

    def run(self, steps):
        """The line that `chip run` says of the ending, where nobody attacks."""
        self.is_running = True
        while self.retired < steps:
            ending = self.step()
            if ending is not None:
                return ending
        return "out of steps"

    def step(self):
        pc = self.pc
        if pc + 4 > self.size:
            return self.trap("outside memory")
        self.memory.touch(pc // LINE, False)
        word = int.from_bytes(self.bytes[pc : pc + 4], "little")
        if word == 0x73:
            return self.service()
        if word == 0x100073:
            return self.trap("breakpoint")
        if word & 0x7F in (LOAD, STORE):
            return self.move(word)
        return self.evaluate(word)

    def evaluate(self, word):
        try:
            if word & 0x707F == 0x1013 and word >> 25:  # slli, of which vectors.py makes no other case
                return self.trap("illegal")
            if word & 0x707F == 0x5013 and word >> 25 not in (0, 0x20):
                return self.trap("illegal")
            _, following, after = evaluate(word, self.pc, self.registers, self.bytes)
        except (KeyError, SystemExit):
            return self.trap("illegal")
        if following % 4:
            return self.trap("misaligned target")
        return self.retire(following, after)

    def move(self, word):
        """A load or a store."""
        is_store, kind = word & 0x7F == STORE, word >> 12 & 7
        if kind not in WIDTHS or is_store and kind > 2:
            return self.trap("illegal")
        offset = word >> 25 << 5 | word >> 7 & 31 if is_store else word >> 20
        address = self.registers[word >> 15 & 31] + offset - (offset >> 11 << 12) & MASK
        if address % WIDTHS[kind]:
            return self.trap("misaligned data")
        if address + WIDTHS[kind] > self.size:
            return self.trap("outside memory")
        self.memory.touch(address // LINE, is_store)
        _, following, after = evaluate(word, self.pc, self.registers, self.bytes)
        return self.retire(following, after)

    def service(self):
        number, (first, second, third) = self.registers[17], self.registers[10:13]
        if number == 93:
            self.retired += 1
            return f"halted {first}"
        services = {63: self.read, 64: self.write, 214: self.brk}
        answer = services[number](first, second, third) if number in services else -38
        after = list(self.registers)
        after[10] = answer & MASK
        return self.retire(self.pc + 4, after)

    def read(self, file, address, length):
        if file != 0:
            return -9
        if length and address + length > self.size:
            return -14
        taken, self.given = self.given[:length], self.given[length:]
        self.bytes[address : address + len(taken)] = taken
        self.touch(address, len(taken), True)
        return len(taken)

    def write(self, file, address, length):
        if file not in (1, 2):
            return -9
        if length and address + length > self.size:
            return -14
        self.output += self.bytes[address : address + length]
        self.touch(address, length, False)
        return length

    def brk(self, wanted, *_):
        if self.first_break <= wanted <= self.size - PAGE:
            self.break_ = wanted
        return self.break_

    def retire(self, following, after):
        self.pc, self.registers = following, after
        self.retired += 1

    def trap(self, cause):
        return f"trapped {cause} pc {self.pc:08x}"
