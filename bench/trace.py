#!/usr/bin/env python3
"""Reads a trace, the file that `chip trace` writes, and prints its accesses by kind and by place.

It is a second reader of the file's form, and shares no code with the chip: a file that is no trace for the memory is refused
as `chip judge` refuses it, `refused trace CODE NAME` with status 3. An answer is false where a read differs from the last
write of its place before it, or from zeros where there was none. It runs no program, so it says nothing of the output, the
retired count and the ending but what the file says.

--list prints in place of that a line for each access, as accesses.py --list does of the model of a run.
--plot draws the places over the accesses: reads, writes and false answers, with a band for the lines and for each level.
--axis gives the pictures of two traces one axis, so that they can be compared.
--self-test reads traces made by hand: each fault, each cut of a short trace, the largest counts.

It needs Python 3 and nothing else. docs/FORMATS.md, "Traces", has the form.
"""

import argparse
import collections
import os
import struct
import sys

import bands
import model

MAGIC, LONGEST = b"RVTR\x01", 67108864
ENDINGS = {0: "halted", 1: "trapped", 4: "out of steps", 5: "tampered", 6: "spent"}
KINDS = {0: ("read", True), 1: ("write", True), 2: ("read", False), 3: ("write", False)}  # whether it is of a line
LINE_BYTES, NODE_BYTES = 80, 64
CODES = {"Short": 1, "Magic": 2, "Kind": 3, "Place": 4, "Rest": 5}

Trace = collections.namedtuple("Trace", "output ending code retired entries")
Entry = collections.namedtuple("Entry", "kind level index data")  # the level of a line is model.DATA


class Refused(Exception):
    """A line to print on standard error, and the status to end with."""

    def __init__(self, line, status=3):
        super().__init__(line)
        self.status = status


# --- the file --------------------------------------------------------------------------------------------------------


def fault(name):
    return Refused(f"refused trace {CODES[name]} {name}")


class Bytes:
    """The bytes of a file, field by field. A field that is cut off is a fault before anything is made of it."""

    def __init__(self, file):
        self.file, self.at = file, 0

    def take(self, count):
        if len(self.file) - self.at < count:
            raise fault("Short")
        self.at += count
        return self.file[self.at - count : self.at]

    def number(self, form):
        """A number, the lowest byte first."""
        return struct.unpack("<" + form, self.take(struct.calcsize("<" + form)))[0]


def read_trace(file, shape):
    """The trace that a file is for a memory of this shape, or its first fault from the left."""
    fields = Bytes(file)
    if fields.take(len(MAGIC)) != MAGIC:
        raise fault("Magic")
    output = fields.take(fields.number("Q"))
    ending = fields.number("B")
    if ending not in ENDINGS:
        raise fault("Kind")
    code, retired, count = fields.number("I"), fields.number("Q"), fields.number("Q")
    entries = []
    while len(entries) < count:
        entries.append(read_entry(fields, shape))
    if fields.at < len(file):
        raise fault("Rest")
    return Trace(output, ending, code, retired, entries)


def read_entry(fields, shape):
    number = fields.number("B")
    if number not in KINDS:
        raise fault("Kind")
    kind, is_line = KINDS[number]
    level, index = (model.DATA, fields.number("I")) if is_line else struct.unpack("<BI", fields.take(5))
    if not is_place(shape, level, index):
        raise fault("Place")
    return Entry(kind, level, index, fields.take(LINE_BYTES if is_line else NODE_BYTES))


def is_place(shape, level, index):
    if level is model.DATA:
        return index < shape.lines
    return level <= shape.levels and index < shape.width(level)


# --- the accesses ----------------------------------------------------------------------------------------------------


def false_entries(entries):
    """The numbers of the false ones, counted from 1."""
    written, numbers = {}, []
    for number, entry in enumerate(entries, 1):
        place = entry.level, entry.index
        if entry.kind == "write":
            written[place] = entry.data
        elif entry.data != written.get(place, bytes(len(entry.data))):
            numbers.append(number)
    return numbers


def order_of(place):
    """Lines come first, then the nodes by their level."""
    level, index = place
    return (-1 if level is model.DATA else level), index


Row = collections.namedtuple("Row", "name reads writes false")


def rows(trace, false, key, name):
    """The counts of each level or place: reads, writes, and the numbers of the false ones."""
    counts, wrong = collections.Counter(), collections.defaultdict(list)
    for entry in trace.entries:
        counts[entry.kind, key(entry)] += 1
    for number in false:
        wrong[key(trace.entries[number - 1])].append(number)
    for at in sorted({at for _, at in counts}, key=order_of):
        yield Row(name(*at), counts["read", at], counts["write", at], wrong[at])


def ending_of(trace):
    """The ending as the file has it. Not every code is one of a run."""
    return f"{ENDINGS[trace.ending]}, code {trace.code}"


def report(trace, false, shape):
    print(f"{ending_of(trace)}, retired {trace.retired:,}, output of {len(trace.output):,} bytes, {shape}")
    print(f"accesses: {len(trace.entries):,}, of them false {len(false):,}" + (f", first {false[0]:,}" if false else ""))
    print(f"{'':<18} {'reads':>9} {'writes':>9} {'false':>9}")
    for row in rows(trace, false, lambda entry: (entry.level, 0), lambda level, _: model.name_of(level)):
        print(f"{row.name:<18} {row.reads:>9,} {row.writes:>9,} {len(row.false):>9,}")
    print(f"{'place':<18} {'reads':>9} {'writes':>9}  false")
    for row in rows(trace, false, lambda entry: (entry.level, entry.index), model.place_of):
        print(f"{row.name:<18} {row.reads:>9,} {row.writes:>9,}  {numbers_text(row.false)}".rstrip())


def numbers_text(numbers):
    """The first of them."""
    shown = ", ".join(f"access {number}" for number in numbers[:3])
    return shown + (f" and {len(numbers) - 3:,} more" if len(numbers) > 3 else "")


def print_list(trace, false):
    is_false = set(false)
    for number, entry in enumerate(trace.entries, 1):
        mark = "  false" if number in is_false else ""
        print(model.listed(number, entry.kind, entry.level, entry.index) + mark)


def plot(options, trace, false):
    marks = [(order_of((entry.level, entry.index)), entry.kind) for entry in trace.entries]
    levels = {order_of((entry.level, 0))[0]: model.name_of(entry.level) for entry in trace.entries}
    name = os.path.splitext(os.path.basename(options.file))[0]
    title = f"{name}: {ending_of(trace)}, retired {trace.retired:,}, {options.shape}"
    with open(options.plot, "w", encoding="utf-8") as file:
        file.write(bands.draw(title, marks, dict(sorted(levels.items(), reverse=True)), set(false), options.axis))


# --- traces made by hand ---------------------------------------------------------------------------------------------


def line_entry(number, index, data=b""):
    return struct.pack("<BI", number, index) + data.ljust(LINE_BYTES, b"\0")


def node_entry(number, level, index, data=b""):
    return struct.pack("<BBI", number, level, index) + data.ljust(NODE_BYTES, b"\0")


def made(*entries, output=b"", ending=0, code=7, retired=3, count=None):
    """The file of a trace, with another count of entries where one is given."""
    head = MAGIC + struct.pack("<Q", len(output)) + output + struct.pack("<BIQ", ending, code, retired)
    return head + struct.pack("<Q", len(entries) if count is None else count) + b"".join(entries)


MOST = 2**64 - 1
ONE, TWO, LARGEST, OTHER = model.Shape(1, 1), model.Shape(1, 2), model.Shape(1, 8), model.Shape(2, 1)
# A trace with an entry of each kind, and an output.
ALL_KINDS = [line_entry(1, 5, b"a"), line_entry(0, 5, b"a"), node_entry(3, 1, 2, b"b"), node_entry(2, 1, 2, b"b")]
# Of each: the file, the memory, and its first fault, or none. ONE has 256 lines, 4 counter blocks and a top node; TWO 1,024
# lines, 16 counter blocks, 4 nodes above them and a top node; OTHER, of layout 2, 512 lines, 8 counter blocks and a top node.
FILES = [
    (b"RVTR\x01" + bytes(9) + b"\7" + bytes(3) + b"\3" + bytes(15), model.Shape(), None),
    (made(*ALL_KINDS, output=b"hello", ending=4, code=0), TWO, None),
    (b"RVTR\x02" + made()[5:], TWO, "Magic"),
    (b"rvtr\x01" + made()[5:], TWO, "Magic"),
    (b"NOPE", TWO, "Short"),
    (b"NOPES", TWO, "Magic"),
    *[(made(ending=ending), TWO, None if ending in (0, 1, 4, 5, 6) else "Kind") for ending in range(256)],
    *[(made(line_entry(kind, 5)), TWO, None if kind < 2 else "Place" if kind < 4 else "Kind") for kind in range(256)],
    (made(node_entry(2, 0, 3))[:-64] + line_entry(0, 5), TWO, "Rest"),
    (made(line_entry(0, 1023)), TWO, None),
    (made(line_entry(0, 1024)), TWO, "Place"),
    (made(line_entry(1, 256)), ONE, "Place"),
    (made(node_entry(2, 0, 15)), TWO, None),
    (made(node_entry(2, 0, 16)), TWO, "Place"),
    (made(node_entry(3, 1, 4)), TWO, "Place"),
    (made(node_entry(3, 2, 0)), TWO, None),
    (made(node_entry(3, 2, 1)), TWO, "Place"),
    (made(node_entry(3, 3, 0)), TWO, "Place"),
    (made(node_entry(3, 255, 0)), TWO, "Place"),
    (made(line_entry(0, 2**32 - 1)), LARGEST, "Place"),
    (made(line_entry(0, 1024))[:-80], TWO, "Place"),
    (made(line_entry(0, 1024))[:-81], TWO, "Short"),
    (made(node_entry(2, 3, 0))[:-65], TWO, "Short"),
    (made(line_entry(0, 5), count=0), TWO, "Rest"),
    (made() + b"\0", TWO, "Rest"),
    (made(line_entry(0, 5), count=2), TWO, "Short"),
    (made(line_entry(0, 5), count=MOST), TWO, "Short"),
    (made(line_entry(0, 1024), count=MOST), TWO, "Place"),
    (made(line_entry(7, 5), count=MOST), TWO, "Kind"),
    (MAGIC + struct.pack("<Q", MOST) + bytes(100), TWO, "Short"),
    (made(line_entry(0, 511, bytes(79) + b"a"), node_entry(2, 0, 7), node_entry(2, 1, 0)), OTHER, None),
    (made(line_entry(0, 512)), OTHER, "Place"),
    (made(node_entry(2, 0, 8)), OTHER, "Place"),
    (made(node_entry(2, 1, 1)), OTHER, "Place"),
    (made(code=2**32 - 1, retired=MOST), TWO, None),
]
# Of each: entries, and the numbers of those that are false.
ANSWERS = [
    ([line_entry(0, 0)], []),
    ([line_entry(0, 0, b"\1")], [1]),
    ([node_entry(2, 0, 0, b"\1"), node_entry(2, 0, 0)], [1]),
    (ALL_KINDS, []),
    ([line_entry(1, 5, b"a"), line_entry(1, 5, b"b"), line_entry(0, 5, b"a"), line_entry(0, 5, b"b")], [3]),
    ([line_entry(1, 5, b"a"), line_entry(0, 6, b"a")], [2]),
    ([node_entry(3, 1, 0, b"a"), node_entry(2, 0, 0, b"a"), node_entry(2, 1, 0, b"a")], [2]),
    ([line_entry(1, 0, b"a"), node_entry(2, 0, 0, b"a")], [2]),
    ([line_entry(1, 5, bytes(79) + b"a"), line_entry(0, 5)], [2]),
]


def first_fault(file, shape):
    try:
        read_trace(file, shape)
    except Refused as refusal:
        return str(refusal).split()[-1]
    return None


def self_test():
    """How many cases there are, and those that fail."""
    cases = [(first_fault(file, shape), wanted) for file, shape, wanted in FILES]
    whole = FILES[1][0]
    cases += [(first_fault(whole[:length], TWO), "Short") for length in range(len(whole))]
    cases += [(false_entries(read_trace(made(*entries), TWO).entries), wanted) for entries, wanted in ANSWERS]
    cases.append((read_trace(whole, TWO)[:4], (b"hello", 4, 0, 3)))
    cases.append((read_trace(FILES[-1][0], TWO)[1:4], (0, 2**32 - 1, MOST)))
    faults = [f"case {number}: {came}, and not {wanted}" for number, (came, wanted) in enumerate(cases, 1) if came != wanted]
    print(*faults, f"self-test: {len(cases)} cases, {len(faults)} fail", sep="\n")
    return 1 if faults else 0


# --- the command -----------------------------------------------------------------------------------------------------


def arguments():
    parser = argparse.ArgumentParser(description=__doc__, formatter_class=argparse.RawDescriptionHelpFormatter)
    parser.add_argument("file", metavar="FILE", nargs="?", help="the trace")
    parser.add_argument("--layout", type=int, choices=model.LAYOUTS, default=1, metavar="N", help="1 or 2, default 1")
    parser.add_argument("--levels", type=int, metavar="L", help="1 to 8, default 4; under layout 2 1 to 5, default 3")
    parser.add_argument("--list", action="store_true", help="a line for each access alone, as accesses.py --list")
    parser.add_argument("--plot", metavar="OUT.svg", help="draw the places over the accesses")
    parser.add_argument("--axis", type=int, default=1, metavar="N", help="how many accesses the axis has at least")
    parser.add_argument("--self-test", action="store_true", help="read traces made by hand, and no file")
    options = parser.parse_args()
    if (options.file is None) != options.self_test:
        parser.error("a FILE, or --self-test")
    try:
        options.shape = model.Shape(options.layout, options.levels)
    except model.Refused as refusal:
        parser.error(refusal)
    return options


def read_file(path):
    try:
        with open(path, "rb") as file:
            data = file.read(LONGEST + 1)
    except OSError:
        raise Refused(f"read fault {path}", 8)
    if len(data) > LONGEST:
        raise Refused("refused long")
    return data


def main():
    options = arguments()
    if options.self_test:
        return self_test()
    try:
        trace = read_trace(read_file(options.file), options.shape)
    except Refused as refusal:
        print(refusal, file=sys.stderr)
        return refusal.status
    false = false_entries(trace.entries)
    if options.list:
        print_list(trace, false)
    else:
        report(trace, false, options.shape)
    if options.plot:
        plot(options, trace, false)
    return 0


if __name__ == "__main__":
    sys.exit(main())
