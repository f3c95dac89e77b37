#!/usr/bin/env python3
"""Times the program chip on named programs, and prints the least processor's seconds of several tries of each.

    held       a loop whose lines stay on the chip, by plain and by run, 36,864,005 instructions
    misses     loops whose every load misses, at 4 levels: counters on the chip (lines), and far apart (apart)
    wear       write-backs with and without overflows, at 2 levels
    generated  bench 0 and bench 1
    kept       the host's memory that a run keeps for each message that it tags
    qemu       a loop of 100,000,018 instructions by plain and by qemu-riscv32 (wants the RISC-V GCC and qemu-user)

Without a name all but qemu are timed. --other runs a second program by turns with the first, so that a change is measured
before and after it: the program of another checkout, or its folder, where its `./chip` proves and builds it first.
A run that ends otherwise than it should ends the script with status 1.
"""

import argparse
import collections
import os
import subprocess
import tempfile

import model
import programs
import runs

# One command that is timed: its words behind the program, what it tells first, and how many instructions it retires.
Case = collections.namedtuple("Case", "name words told retired")


def halted(retired):
    return ["halted 0", f"retired {retired}"]


class Bench:
    """The programs that are compared, and the folder of what they run."""

    def __init__(self, chips, tries, folder):
        self.chips, self.tries, self.folder = chips, tries, folder

    def path(self, name, text):
        return runs.assemble(self.chips["this"], text, os.path.join(self.folder, name.replace(" ", "_") + ".elf"))

    def least(self, cases):
        """The least seconds of each case by each program, by turns. Each program prints the same."""
        least, outputs = {}, {}
        for _ in range(self.tries):
            for case in cases:
                for chip, path in self.chips.items():
                    done = runs.run([path, *case.words])
                    runs.expect(case.words, done, case.told, outputs.setdefault(case.name, done.output))
                    key = case.name, chip
                    least[key] = min(done.seconds, least.get(key, float("inf")))
        for case in cases:
            self.line(case, least)
        return {case.name: least[case.name, "this"] for case in cases}

    def line(self, case, least):
        taken = least[case.name, "this"]
        text = f"{case.name:<20} {taken:.4f} seconds"
        if case.retired:
            text += f", {case.retired / max(taken, 1e-6) / 1e6:.1f} million instructions a second"
        if "other" in self.chips:
            other = least[case.name, "other"]
            text += f"; the other {other:.4f}: this is {other / max(taken, 1e-6):.2f} times as fast"
        print(text, flush=True)


# --- the named programs ----------------------------------------------------------------------------------------------


def held(bench):
    path = bench.path("held", programs.HELD)
    retired = programs.HELD_RETIRED
    words = [path, "--steps", str(retired)]
    cases = [Case(f"held, {command}", [command, *words], halted(retired), retired) for command in ("plain", "run")]
    took = bench.least(cases)
    print(f"held: run has {took['held, plain'] / took['held, run']:.2f} of plain's speed")


def observed(path, shape, steps=10**9):
    """The model's machine after a program."""
    machine = model.Machine(model.read_program(path, False, shape), shape)
    machine.run(steps)
    return machine


def misses(bench):
    cases, made, shape = [], {}, model.Shape()
    for name, text in (("misses, lines", programs.missing_lines()), ("misses, apart", programs.far_lines(shape.size))):
        path = bench.path(name, text)
        machine = observed(path, shape)
        made[name] = machine.memory.total
        cases.append(Case(name, ["run", path], halted(machine.retired), machine.retired))
    took = bench.least(cases)
    for name, accesses in made.items():
        print(f"{name}: {accesses:,} accesses, {1e6 * took[name] / accesses:.2f} µs each")


def wear(bench):
    kinds = {"no store": (False, 128), "128 lines": (True, 128), "one line": (True, 1)}
    told = [halted(programs.WEAR_RETIRED)[1]]
    cases = []
    for name, (stores, lines) in kinds.items():
        words = ["run", bench.path(name, programs.wear(stores, lines)), "--levels", "2"]
        cases.append(Case(f"wear, {name}", words, ["halted 0", *told], programs.WEAR_RETIRED))
    took = bench.least(cases)
    write = (took["wear, 128 lines"] - took["wear, no store"]) / programs.WEAR_ROUNDS
    overflow = (took["wear, one line"] - took["wear, 128 lines"]) / programs.WEAR_OVERFLOWS + write
    print(f"wear: a write-back {1e6 * write:.2f} µs, one with an overflow {1e6 * overflow:.1f} µs")


def generated(bench):
    bench.least([Case(f"bench {number}", ["bench", number], [], programs.GENERATED_RETIRED) for number in ("0", "1")])


KEPT_STEPS = 400000, 800000


def kept(bench):
    """By two budgets, whose peaks are both far above what Python has as it starts a process."""
    path = bench.path("thrash", programs.THRASH)
    machine = model.Machine(model.read_program(path, False, model.Shape()), model.Shape())
    written = []
    for steps in KEPT_STEPS:
        machine.run(steps)
        written.append(sum(count for (kind, _), count in machine.memory.count.items() if kind == "write"))
    for chip, program in bench.chips.items():
        peaks = []
        for steps in KEPT_STEPS:
            words = ["run", path, "--steps", str(steps)]
            done = runs.run([program, *words])
            runs.expect(words, done, ["out of steps", f"retired {steps}"])
            peaks.append(done.peak)
        each = (peaks[1] - peaks[0]) / (written[1] - written[0])
        print(f"kept, {chip}: {each:.0f} bytes a message ({written[1]:,} messages, peak {peaks[1] / 1e6:.0f} MB)", flush=True)


QEMU_ROUNDS = 5_000_000
QEMU_RETIRED = 20 * QEMU_ROUNDS + 18


def qemu(bench):
    path = os.path.join(bench.folder, "loop.elf")
    options = ["-march=rv32im", "-mabi=ilp32", "-nostdlib", "-static", f"-Wa,--defsym,rounds={QEMU_ROUNDS}"]
    linking = "-Wl,-Ttext=0x10000,--no-relax,--no-warn-rwx-segments"
    source = os.path.join(runs.TOP, "bench/loop.s")
    subprocess.run(["riscv64-unknown-elf-gcc", *options, linking, source, "-o", path], check=True)
    by_qemu = [runs.run(["qemu-riscv32", path]) for _ in range(bench.tries)]
    status, least = by_qemu[0].status, min(done.seconds for done in by_qemu)
    told = [f"halted {status}", f"retired {QEMU_RETIRED}"]
    words = ["plain", path, "--steps", str(2 * QEMU_RETIRED)]
    runs.expect(words, runs.run([bench.chips["this"], *words]), told, by_qemu[0].output)
    took = bench.least([Case("qemu, plain", words, told, QEMU_RETIRED)])
    print(f"qemu: {least:.4f} seconds; plain has {100 * least / took['qemu, plain']:.1f} % of its speed")


NAMED = {"held": held, "misses": misses, "wear": wear, "generated": generated, "kept": kept, "qemu": qemu}


# --- the command -----------------------------------------------------------------------------------------------------


def arguments():
    parser = argparse.ArgumentParser(description=__doc__, formatter_class=argparse.RawDescriptionHelpFormatter)
    parser.add_argument("names", nargs="*", metavar="NAME", help=", ".join(NAMED))
    parser.add_argument("--tries", type=int, default=10, metavar="N", help="default 10")
    parser.add_argument("--program", metavar="PATH", help="the program chip; else this checkout's")
    parser.add_argument("--other", metavar="PATH", help="another checkout's folder, or another program chip")
    options = parser.parse_args()
    unknown = [name for name in options.names if name not in NAMED]
    if unknown:
        parser.error(f"no program {', '.join(unknown)}; there are {', '.join(NAMED)}")
    if options.tries < 1:
        parser.error("--tries is 1 or more")
    return options


def main():
    options = arguments()
    chips = {"this": runs.program(options.program)}
    if options.other:
        is_folder = os.path.isdir(options.other)
        chips["other"] = runs.built(os.path.abspath(options.other)) if is_folder else runs.program(options.other)
    with tempfile.TemporaryDirectory() as folder:
        bench = Bench(chips, options.tries, folder)
        for name in options.names or [name for name in NAMED if name != "qemu"]:
            NAMED[name](bench)


if __name__ == "__main__":
    main()
