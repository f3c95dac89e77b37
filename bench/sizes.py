#!/usr/bin/env python3
"""Runs programs with and without protection, in memories of each size, and prints a table of time, accesses and tags.

Three go round a loop that loads a word, adds to it and stores it, in one line after another: 64 lines that stay on the
chip, 192 lines that miss while their counters stay, and 192 lines far apart, whose counters and nodes miss too. They are
run by `plain` and by `run` in memories of each number of levels, 1 to 8, or with --layout 2 1 to 5. The programs of C, C++
and Rust are run at 4 levels (3), those that are built (`make -C examples/picolibc`, `make -C examples/rust`), with
bench/loop.s as the input, and so is the generated program of the number 0; under layout 1 by `bench`, under 2 as a file.
Accesses are counted by the model of model.py. Each access computes one tag, an HMAC-SHA-256. Of several tries the one with
the least processor time counts.

--plot runs the third loop with budgets from a tenth of its instructions to all of them, too, and draws bench/sizes.svg, or
bench/sizes2.svg of layout 2: seconds over instructions, a line for each size. A run that ends otherwise than it should ends
the script with status 1.
"""

import argparse
import os
import tempfile

import model
import picture
import programs
import runs

PLOTS = {1: os.path.join(runs.TOP, "bench/sizes.svg"), 2: os.path.join(runs.TOP, "bench/sizes2.svg")}
TENTHS = range(1, 11)
STEPS = 10**7
HEAD = "| command | levels | memory | instructions | seconds | accesses, tags | per instruction | AES blocks | µs a tag |"


class Sizes:
    """The program that is run, under which layout, how often, and the folder of what it runs."""

    def __init__(self, chip, layout, tries, folder):
        self.chip, self.layout, self.tries, self.folder = chip, layout, tries, folder
        self.shapes = model.shapes(layout)

    def path(self, name, text):
        return runs.assemble(self.chip, text, os.path.join(self.folder, name.replace(" ", "_") + ".elf"))

    def seconds(self, words, told, output=None):
        least = float("inf")
        for _ in range(self.tries):
            done = runs.run([self.chip, *words])
            runs.expect(words, done, told, output)
            least = min(done.seconds, least)
        return least

    def both(self, name, path, shape, given=None):
        """The rows of a program by plain and by run."""
        machine, ending = observed(path, shape, given)
        told = [ending, f"retired {machine.retired}"]
        words = [path, *shape.words] + (["--input", given] if given else [])
        output = bytes(machine.output)
        row(f"`plain`, {name}", machine, self.seconds(["plain", *words], told, output), False)
        row(f"`run`, {name}", machine, self.seconds(["run", *words], told + ["lies 0"], output), True)


def observed(path, shape, given=None):
    """The model's machine after a program, and how it ended."""
    data = open(given, "rb").read() if given else b""
    machine = model.Machine(model.read_program(path, False, shape), shape, data)
    return machine, machine.run(STEPS)


def row(command, machine, taken, is_protected):
    shape = machine.memory.shape
    counts, each = "none | | none", ""
    if is_protected:
        accesses = machine.memory.total
        counts = f"{accesses:,} | {accesses / machine.retired:.4f} | {model.aes_blocks(machine.memory.count):,}"
        # Where there are fewer accesses than a quarter of the instructions, the time is not the tags'.
        each = f"{1e6 * taken / accesses:.2f}" if 4 * accesses > machine.retired else ""
    memory = model.size_text(shape.size)
    print(f"| {command} | {shape.levels} | {memory} | {machine.retired:,} | {taken:.4f} | {counts} | {each} |", flush=True)


def loops():
    """Name and text of each loop, by the memory's size."""
    yield "64 lines", lambda size: programs.held_lines()
    yield "192 lines", lambda size: programs.missing_lines()
    yield "192 apart", programs.far_lines


def table(sizes):
    print(HEAD)
    print("|---|---|---|---|---|---|---|---|---|")
    for name, text in loops():
        for shape in sizes.shapes:
            sizes.both(name, sizes.path(f"{name} {shape.levels}", text(shape.size)), shape)
    shape = model.Shape(sizes.layout)
    for name, path in programs.compiled():
        sizes.both(name, path, shape, programs.INPUT)
    path = sizes.path("generated", programs.generated_text())
    if sizes.layout == 1:
        generated(sizes, path, shape)
    else:
        sizes.both("generated", path, shape)


def generated(sizes, path, shape):
    """The rows of the generated program, by plain and by bench."""
    machine, ending = observed(path, shape)
    told = [ending, f"retired {machine.retired}"]
    row("`plain`, generated", machine, sizes.seconds(["plain", path], told), False)
    summary = "\n".join(["number 0", *told, f"output {machine.output.hex()}", ""])
    row("`bench 0`", machine, sizes.seconds(["bench", "0"], [], summary.encode()), True)


def points(sizes, shape):
    """Instructions and seconds of the third loop, for each budget."""
    path = sizes.path(f"plot {shape.levels}", programs.far_lines(shape.size))
    retired = observed(path, shape)[0].retired
    for tenth in TENTHS:
        steps = retired * tenth // 10
        told = ["out of steps" if steps < retired else "halted 0", f"retired {steps}"]
        yield steps, sizes.seconds(["run", path, *shape.words, "--steps", str(steps)], told)


def plot(sizes):
    series = {f"{shape.levels} levels": list(points(sizes, shape)) for shape in sizes.shapes}
    title = "chip run, 192 apart: seconds over instructions retired, by levels of the tree"
    title += "" if sizes.layout == 1 else f", layout {sizes.layout}"
    with open(PLOTS[sizes.layout], "w", encoding="utf-8") as file:
        file.write(picture.draw(title, "instructions retired", "processor's seconds", series))


def arguments():
    parser = argparse.ArgumentParser(description=__doc__, formatter_class=argparse.RawDescriptionHelpFormatter)
    parser.add_argument("--layout", type=int, choices=model.LAYOUTS, default=1, metavar="N", help="1 or 2, default 1")
    parser.add_argument("--plot", action="store_true", help="draw bench/sizes.svg (2: bench/sizes2.svg), too")
    parser.add_argument("--tries", type=int, default=5, metavar="N", help="default 5")
    parser.add_argument("--program", metavar="PATH", help="the program chip; else this checkout's")
    options = parser.parse_args()
    if options.tries < 1:
        parser.error("--tries is 1 or more")
    return options


def main():
    options = arguments()
    with tempfile.TemporaryDirectory() as folder:
        sizes = Sizes(runs.program(options.program), options.layout, options.tries, folder)
        table(sizes)
        if options.plot:
            plot(sizes)


if __name__ == "__main__":
    main()
