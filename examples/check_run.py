#!/usr/bin/env python3
"""Checks a report against what a run should have been.

    check_run.py PROGRAM REPORT --output F --nonce HEX
        [--input F] [--flat] [--layout N] [--levels L] [--key HEX] [--code N]

It verifies the report under the device key, computes the program's measurement from its file and the memory's size, and
compares: the layout, where the report has one (version 2), the measurement, the digests of the input and of the output, the
nonce, and the ending, which must be that the program halted, with code N where --code is given. It prints `right`, status 0,
or the first of them that differs, status 1. A report or a program that is refused, or isn't under this key, ends as with
`chip verify` and `chip measure`.

It shares no code with the chip and wants Python's standard library alone. docs/FORMATS.md has the rules.
"""

import argparse
import hashlib
import struct
import sys

sys.dont_write_bytecode = True

from check_report import LONGEST, Refusal, add_key, end, read_digits, read_file, verify

LONGEST_ELF = 8388608
PAGE = 4096
# Of each layout: how many children a node has, the most levels, and those by default.
LAYOUTS = {1: (4, 8, 4), 2: (8, 5, 3)}
ENDINGS = {0: "halted", 1: "trapped", 4: "out of steps", 5: "tampered", 6: "spent"}


def refuse(code, name):
    raise Refusal(f"refused elf {code} {name}", 3)


def flat_program(file, size):
    """A flat file's entry and segments: one segment at 0."""
    if len(file) > size:
        refuse(9, "Segment")
    return 0, [(0, file, len(file))]


def elf_program(file, size):
    """An ELF file's entry and segments, each an address, its bytes and its length in memory."""
    if len(file) < 52:
        refuse(1, "Short")
    if file[:4] != b"\x7fELF":
        refuse(2, "Magic")
    if file[4:7] != b"\1\1\1":
        refuse(3, "Class")
    kind, machine = struct.unpack_from("<HH", file, 16)
    entry, table = struct.unpack_from("<II", file, 24)
    flags, = struct.unpack_from("<I", file, 36)
    width, count = struct.unpack_from("<HH", file, 42)
    if kind != 2:
        refuse(4, "Kind")
    if machine != 243:
        refuse(5, "Machine")
    if flags & 1:
        refuse(6, "Compressed")
    if count > 64 or count and (width != 32 or table + 32 * count > len(file)):
        refuse(7, "Table")
    headers = [struct.unpack_from("<6I", file, table + 32 * at) for at in range(count)]
    if any(header[0] == 3 for header in headers):
        refuse(8, "Interp")
    segments = []
    for kind, at, address, _, length, memory in headers:
        if kind != 1:
            continue
        if length > memory or length and at + length > len(file) or address + memory > size:
            refuse(9, "Segment")
        segments.append((address, file[at : at + length], memory))
    if entry % 4 or entry + 4 > size:
        refuse(10, "Entry")
    return entry, segments


def measurement(entry, segments, size):
    """The SHA-256 of the program's record."""
    record = struct.pack("<3I", entry, size, len(segments))
    for address, content, memory in segments:
        record += struct.pack("<3I", address, len(content), memory) + content
    return hashlib.sha256(record).digest()


def memory_size(layout, levels):
    arity, most, by_default = LAYOUTS[layout]
    levels = by_default if levels is None else levels
    if levels > most:
        raise Refusal("usage levels", 2)
    return PAGE * arity**levels


def read_program(name, is_flat, size):
    if is_flat:
        return measurement(*flat_program(read_file(name, LONGEST), size), size)
    return measurement(*elf_program(read_file(name, LONGEST_ELF), size), size)


def digest(name):
    return hashlib.sha256(read_file(name)).hexdigest()


def main():
    parser = argparse.ArgumentParser(description="Checks a report against a run.", allow_abbrev=False)
    parser.add_argument("program", metavar="PROGRAM")
    parser.add_argument("report", metavar="REPORT")
    parser.add_argument("--input", metavar="F", help="the input; an empty one without it")
    parser.add_argument("--output", metavar="F", required=True)
    parser.add_argument("--nonce", metavar="HEX", required=True, help="32 digits")
    parser.add_argument("--flat", action="store_true", help="the program's file is flat")
    parser.add_argument("--layout", metavar="N", type=int, choices=LAYOUTS, default=1, help="1 or 2, default 1")
    parser.add_argument("--levels", metavar="L", type=int, choices=range(1, 9), help="default 4; under layout 2 3")
    parser.add_argument("--code", metavar="N", type=int, help="the exit code")
    add_key(parser)
    words = parser.parse_args()
    size = memory_size(words.layout, words.levels)
    device = read_digits("key", words.key, 64)
    nonce = read_digits("nonce", words.nonce, 32)
    program = read_program(words.program, words.flat, size)
    report = verify(read_file(words.report, LONGEST), device)
    given = digest(words.input) if words.input is not None else hashlib.sha256().hexdigest()
    fields = [
        ("layout", report.layout, words.layout if report.layout is not None else None),
        ("measurement", report.measurement.hex(), program.hex()),
        ("input", report.input.hex(), given),
        ("output", report.output.hex(), digest(words.output)),
        ("nonce", report.nonce.hex(), nonce.hex()),
        ("ending", ENDINGS.get(report.ending, str(report.ending)), "halted"),
    ]
    if words.code is not None:
        fields.append(("code", report.code, words.code))
    for name, reported, expected in fields:
        if reported != expected:
            print(f"{name} differs: the report has {reported}, and not {expected}")
            return 1
    print("right")
    return 0


if __name__ == "__main__":
    end(main)
