#!/usr/bin/env python3
"""Refuses the program each of its allocations in turn, and says whether each run owns up to it.

    refused.py [--program PATH]
    refused.py --try [N ..]

Four runs: the program that exits with 7; the one that stores an A at six places and prints it, without a script and with one
that flips a bit of what it reads back; and the one that prints A and B by two calls. For N from 1 on the N-th allocation is
refused, until two N in a row change nothing. Each run must print just what it prints with ample memory, and end with that
status; or end with status 10, and have printed a front of it. On standard error `no memory` may stand behind the front, or
the note of a run that found no memory: `no memory`, and how many instructions it had retired.

By default the proved program is run, with an allocator before the C library's (which wants cc). With --try each N is one
`rt try --fail-alloc N` in the folder of the program, which proves nothing, checks the program's memory, and compiles it
anew for each N, a minute or more. The numbers that are named are tried, or else all.
"""

import argparse
import collections
import itertools
import os
import re
import struct
import subprocess
import sys
import tempfile

from runs import TOP, program

NO_MEMORY = 10
FLIP = "read data 5 1: flip data 5 0 01\n"

EXIT_7 = struct.pack("<3I", 0x00700513, 0x05D00893, 0x00000073)
STORE_AND_PRINT = struct.pack(
    "<20I",
    *(0x14000293, 0x00001337, 0x00530333, 0x000023B7, 0x005383B3, 0x04100E13),  # the places and the letter
    *(0x01C28023, 0x05C28023, 0x01C30023, 0x05C30023, 0x01C38023, 0x05C38023),  # the stores
    *(0x00100513, 0x00038593, 0x00100613, 0x04000893, 0x00000073),  # write
    *(0x0002C503, 0x05D00893, 0x00000073),  # exit
)
PRINT_TWICE = struct.pack(
    "<11I2s",
    *(0x000005B7, 0x02C58593, 0x00100613, 0x00100513, 0x04000893, 0x00000073),  # write
    *(0x00158593, 0x00100513, 0x00000073),  # write
    *(0x05D00893, 0x00000073),  # exit
    b"AB",
)

# A run, and what it prints: its output, and its note, each line a pattern.
Row = collections.namedtuple("Row", "name image script status output note")
REPORT = "report [0-9a-f]{318}"
ROWS = [
    Row("exit", EXIT_7, None, 0, b"", ["halted 7", "retired 3", "lies 0", REPORT]),
    Row("store", STORE_AND_PRINT, None, 0, b"A", ["halted 65", "retired 20", "lies 0", REPORT]),
    Row("flip", STORE_AND_PRINT, FLIP, 5, b"A", ["tampered data 5", "retired 17", "lies 1", REPORT]),
    Row("twice", PRINT_TWICE, None, 0, b"AB", ["halted 1", "retired 11", "lies 0", REPORT]),
]

Ended = collections.namedtuple("Ended", "status output note")

# The allocator of the C library, but for its call number REFUSED, which finds no memory.
ALLOCATOR = """
#define _GNU_SOURCE
#include <dlfcn.h>
#include <stdlib.h>

static int refused(void)
{
    static unsigned long calls, number;
    if (number == 0)
        number = strtoul(getenv("REFUSED"), NULL, 10);
    return ++calls == number;
}

void *malloc(size_t size)
{
    static void *(*next)(size_t);
    if (next == NULL)
        *(void **)&next = dlsym(RTLD_NEXT, "malloc");
    return refused() ? NULL : next(size);
}

void *realloc(void *old, size_t size)
{
    static void *(*next)(void *, size_t);
    if (next == NULL)
        *(void **)&next = dlsym(RTLD_NEXT, "realloc");
    return refused() ? NULL : next(old, size);
}
"""


def write(path, data):
    with open(path, "wb") as file:
        file.write(data)
    return path


def compiled(folder):
    source = write(os.path.join(folder, "allocator.c"), ALLOCATOR.encode())
    library = os.path.join(folder, "allocator.so")
    subprocess.run(["cc", "-O1", "-shared", "-fPIC", "-o", library, source, "-ldl"], check=True)
    return library


def by_program(chip, folder):
    """How the rows end where an allocation of the program is refused."""
    library = compiled(folder)

    def ended(row, number):
        image = write(os.path.join(folder, row.name), row.image)
        words = [chip, "run", image, "--flat"]
        if row.script is not None:
            words += ["--script", write(os.path.join(folder, "script"), row.script.encode())]
        own = {**os.environ, "LD_PRELOAD": library, "REFUSED": str(number)}
        done = subprocess.run(words, env=own, stdin=subprocess.DEVNULL, capture_output=True)
        return Ended(done.returncode, done.stdout, done.stderr)

    return lambda number: [ended(row, number) for row in ROWS]


# What `rt try` writes behind each case, and how the program ended in it.
CASE = re.compile(rb"case=(\S+) run=(\S+)(?: status=(\d+))? .*\n")
TOLD_BY_TRY = re.compile(rb"(allocations|checked|interpreter): .*\n")


def by_try(folder):
    """How the rows end where an allocation is refused to the program as `rt try` makes it."""
    cases, data = os.path.join(folder, "cases"), []
    os.mkdir(cases)
    for row in ROWS:
        write(os.path.join(cases, row.name), row.image)
        if row.script is not None:
            write(os.path.join(cases, row.name + ".args"), f"--script\n{row.name}.script\n".encode())
            path = write(os.path.join(folder, "script"), row.script.encode())
            data += ["--data", f"{row.name}.script={path}"]

    def ended(number):
        words = ["rt", "try", "--fail-alloc", str(number), "--cases", cases, *data, "--", "run", "{}", "--flat"]
        done = subprocess.run(words, cwd=os.path.join(TOP, "crates/chip"), capture_output=True)
        outputs = outputs_by_case(done.stdout)
        notes, at = {}, 0
        for case in CASE.finditer(done.stderr):
            note = TOLD_BY_TRY.sub(b"", done.stderr[at : case.start()])
            at = case.end()
            status = int(case[3]) if case[2] == b"ended" and case[3] else None
            notes[case[1]] = (status, note)
        if len(notes) != len(ROWS):
            sys.exit(f"{' '.join(words)}: status {done.returncode}\n{done.stderr.decode(errors='replace')}")
        names = [row.name.encode() for row in ROWS]
        return [Ended(notes[name][0], outputs.get(name, b""), notes[name][1]) for name in names]

    return ended


def outputs_by_case(text):
    """The outputs behind lines `== NAME`. `rt try` ends each by a line feed; those of the rows have none."""
    found = re.split(rb"^== (\S+)\n", text, flags=re.M)
    return {name: output.removesuffix(b"\n") for name, output in zip(found[1::2], found[2::2])}


def is_whole(row, ended):
    note = "".join(line + "\n" for line in row.note)
    return (
        ended.status == row.status
        and ended.output == row.output
        and re.fullmatch(note.encode(), ended.note) is not None
    )


# The note of a run that found no memory on its way, or a front of it.
OUT_OF_MEMORY = re.compile(rb"no memory\n(retired (\d+)\n(lies 0\n)?)?")


def is_front(row, ended, whole_note):
    """Out of memory: what was printed is a front of what the row prints, and the note a front of its own, or of a run's
    that found no memory before it ended."""
    if ended.status != NO_MEMORY or not row.output.startswith(ended.output):
        return False
    found = OUT_OF_MEMORY.fullmatch(ended.note)
    if found:
        return int(found[2] or 0) < int(row.note[1].removeprefix("retired "))
    return whole_note.startswith(ended.note.removesuffix(b"no memory\n"))


def main():
    parser = argparse.ArgumentParser(description=__doc__, formatter_class=argparse.RawDescriptionHelpFormatter)
    parser.add_argument("--program", metavar="PATH", help="the program that is run, else this checkout's")
    parser.add_argument("--try", nargs="*", type=int, metavar="N", dest="numbers", help="by rt try, these N or all")
    options = parser.parse_args()
    with tempfile.TemporaryDirectory() as folder:
        tried = by_program(program(options.program), folder) if options.numbers is None else by_try(folder)
        sys.exit(check(tried, options.numbers or itertools.count(1), not options.numbers))


def check(tried, numbers, until_whole):
    """Prints for each row how many allocations were refused to it, and each run that ends otherwise than it may."""
    # No run makes so many allocations.
    ample = tried(2**40)
    for row, ended in zip(ROWS, ample):
        if not is_whole(row, ended):
            sys.exit(f"{row.name}: ends otherwise with ample memory: {ended}")
    refused, in_a_row, faults = collections.Counter(), collections.Counter(), 0
    for number in numbers:
        for row, whole, ended in zip(ROWS, ample, tried(number)):
            if is_whole(row, ended):
                in_a_row[row.name] += 1
            elif is_front(row, ended, whole.note):
                refused[row.name], in_a_row[row.name] = number, 0
            else:
                print(f"{row.name}: N = {number}: {ended}")
                in_a_row[row.name], faults = 0, faults + 1
        if until_whole and all(in_a_row[row.name] >= 2 for row in ROWS):
            break
    for row in ROWS:
        print(f"{row.name}: the last N that it notices is {refused[row.name]}")
    return 1 if faults else 0


if __name__ == "__main__":
    main()
