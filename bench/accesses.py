#!/usr/bin/env python3
"""Counts the accesses that `chip run` makes for a program, by a model of the chip in Python.

Accesses to the memory outside are counted by kind (read or write) and place (data lines, counter blocks, and nodes by
their level). Storing the program and running it are counted apart. Boot makes none.

--trace prints a line for each access, by the number that scripts call it by, and when it is made. --list prints these lines
alone, without when, as trace.py --list does of a run's trace.
--plot draws the accesses over the instructions retired, as NAME.accesses.svg in this folder.
--check N compares the model with the program chip at N random accesses: a script rolls the memory back to power-on before
the access, and the run must then end at the next read of a place that was written, as the model names it.

It needs Python 3 and nothing else; --check needs the program chip.
"""

import argparse
import os
import random
import sys
import tempfile

import model
import picture
import runs


def arguments():
    parser = argparse.ArgumentParser(description=__doc__, formatter_class=argparse.RawDescriptionHelpFormatter)
    parser.add_argument("file", metavar="FILE", help="the program: an ELF file, or with --flat a flat file")
    parser.add_argument("--flat", action="store_true")
    parser.add_argument("--layout", type=int, choices=model.LAYOUTS, default=1, metavar="N", help="1 or 2, default 1")
    parser.add_argument("--levels", type=int, metavar="L", help="1 to 8, default 4; under layout 2 1 to 5, default 3")
    parser.add_argument("--input", metavar="F", help="the file that the program reads")
    parser.add_argument("--steps", type=int, default=10000000, metavar="N", help="default 10000000")
    parser.add_argument("--trace", action="store_true", help="a line for each access, and when it is made")
    parser.add_argument("--list", action="store_true", help="a line for each access alone, as trace.py --list")
    parser.add_argument("--plot", action="store_true", help="draw NAME.accesses.svg")
    parser.add_argument("--check", type=int, default=0, metavar="N", help="compare N accesses with the program")
    parser.add_argument("--program", metavar="PATH", help="the program chip; else this checkout's")
    options = parser.parse_args()
    try:
        options.shape = model.Shape(options.layout, options.levels)
    except model.Refused as fault:
        parser.error(fault)
    return options


class Log:
    """What was seen of a run: each access, where the machine stood, and what it counts."""

    def __init__(self, is_traced, is_listed, is_kept):
        self.machine, self.is_traced, self.is_listed, self.is_kept = None, is_traced, is_listed, is_kept
        self.accesses, self.first = [], None

    def see(self, number, kind, level, index):
        machine = self.machine
        if self.is_listed:
            print(model.listed(number, kind, level, index))
        elif self.is_traced:
            when = f"pc {machine.pc:08x} retired {machine.retired}" if machine and machine.is_running else "storing"
            print(f"{model.listed(number, kind, level, index)}  {when}")
        if self.is_kept:
            self.accesses.append((kind, level, index, machine.retired if machine else 0))


def observed(options):
    """The machine after its run, how it ended, its counts as it began to run, and the log."""
    try:
        given = open(options.input, "rb").read() if options.input else b""
        program = model.read_program(options.file, options.flat, options.shape)
    except OSError as fault:
        sys.exit(f"accesses: {fault.filename}: {fault.strerror}")
    except model.Refused as fault:
        sys.exit(f"accesses: {options.file}: {fault}")
    log = Log(options.trace, options.list, options.check or options.plot)
    machine = model.Machine(program, options.shape, given, log.see)
    log.machine = machine
    memory = machine.memory
    before = memory.total, memory.uses, memory.hits, memory.overflows, memory.count.copy()
    return machine, machine.run(options.steps), before, log


# --- the counts ------------------------------------------------------------------------------------------------------


def report(machine, ending, before):
    memory = machine.memory
    stored, uses, hits, overflows, storing = before
    running = memory.count - storing
    ran, used = memory.total - stored, memory.uses - uses
    print(f"{ending}, retired {machine.retired:,}, {memory.shape}")
    print(f"accesses: storing {stored:,}, run {ran:,}")
    print(f"{'':<18} {'storing':>9} {'':>9} {'run':>9}")
    print(f"{'':<18} {'reads':>9} {'writes':>9} {'reads':>9} {'writes':>9}")
    for level in [model.DATA, *range(memory.shape.levels + 1)]:
        counts = [count[kind, level] for count in (storing, running) for kind in ("read", "write")]
        if any(counts):
            print(f"{model.name_of(level):<18} " + " ".join(f"{count:>9,}" for count in counts))
    hit = memory.hits - hits
    if machine.retired:
        print(f"accesses per instruction: {ran / machine.retired:.4f}")
    if used:
        print(f"fetches, loads and stores: {used:,}, of them hits of lines {100 * hit / used:.2f} %")
    print(f"overflows: {memory.overflows - overflows} (and {overflows} while storing)")
    print(f"AES blocks: {model.aes_blocks(running):,} (and {model.aes_blocks(storing):,} while storing)")


def plot(options, machine, log, stored):
    """The accesses of each kind so far, over the instructions retired."""
    kinds = {"data lines": [], "counter blocks": [], "nodes above": []}
    counts = dict.fromkeys(kinds, 0)
    step = max(machine.retired // 300, 1)
    rest = iter(log.accesses[stored:])
    access = next(rest, None)
    for at in [*range(0, machine.retired, step), machine.retired]:
        while access is not None and access[3] <= at:
            level = access[1]
            counts["data lines" if level is model.DATA else "nodes above" if level else "counter blocks"] += 1
            access = next(rest, None)
        for kind, count in counts.items():
            kinds[kind].append((at, count))
    name = os.path.splitext(os.path.basename(options.file))[0]
    path = f"{name}.accesses.svg"
    title = f"{name}: accesses after storing, over instructions retired, {options.shape}"
    with open(path, "w", encoding="utf-8") as file:
        file.write(picture.draw(title, "instructions retired", "accesses after storing", kinds, dots=False))
    print(f"plot: {path}")


# --- the comparison with the program ---------------------------------------------------------------------------------


def first_false(accesses, chosen):
    """The place of the first false answer, where the memory is rolled back before an access (counted from 0), and how
    many instructions are retired there; or none. Each place that is read was written before, and not with zeros."""
    fresh = set()
    for kind, level, index, retired in accesses[chosen:]:
        if kind == "write":
            fresh.add((level, index))
        elif (level, index) not in fresh:
            return model.place_of(level, index), retired
    return None


def check(options, machine, ending, log):
    chip = runs.program(options.program)
    words = [chip, "run", options.file, *options.shape.words, "--steps", str(options.steps)]
    words += ["--flat"] if options.flat else []
    words += ["--input", options.input] if options.input else []
    chosen = random.sample(range(len(log.accesses)), min(options.check, len(log.accesses)))
    wrong = 0
    with tempfile.TemporaryDirectory() as folder:
        script = os.path.join(folder, "rollback.script")
        for at in sorted(chosen):
            with open(script, "w", encoding="utf-8") as file:
                file.write(f"access 1: saveall 0\naccess {at + 1}: restoreall 0\n")
            found = first_false(log.accesses, at)
            told = [f"tampered {found[0]}", f"retired {found[1]}"] if found else [ending, f"retired {machine.retired}"]
            done = runs.run(words + ["--script", script])
            if done.told[:2] != told:
                wrong += 1
                print(f"access {at + 1}: the program says {done.told[:2]}, the model {told}")
    print(f"check: {len(chosen)} accesses, {wrong} differ")
    return 1 if wrong else 0


def main():
    options = arguments()
    machine, ending, before, log = observed(options)
    if not options.list:
        report(machine, ending, before)
    if options.plot:
        plot(options, machine, log, before[0])
    return check(options, machine, ending, log) if options.check else 0


if __name__ == "__main__":
    sys.exit(main())
