#!/usr/bin/env python3
"""Prints what memories of both layouts cost, a row for each number of levels, by size: storage and accesses of a miss.

Outside is what runs can write: of each line its ciphertext and what is kept of its tag, the counter blocks and the nodes that
can be evicted. A load is a miss on a written line whose set has a clean victim, a store one with a dirty victim, while the
counter blocks stay cached; and then in a loop over four pages a quarter of the memory apart, in which all that can be missing
is. They are counted by the model of model.py. The bound is the one that is proved.

--plot draws bench/layouts.svg, too: accesses of the loop, and storage outside above the memory itself, over its size.
It needs Python 3 and nothing else.
"""

import argparse
import math
import os

import model
import picture
import runs

PLOT = os.path.join(runs.TOP, "bench/layouts.svg")
HEAD = "| memory | layout | levels | outside | above the memory | on the chip | load | store | at most |"
KEYS, ROOT = 112, 16
SMALLEST = 16384


def can_be_evicted(shape, level):
    """Whether a level has more nodes than its cache has ways."""
    return shape.width(level) > 2 * (model.NODE_SETS if level else model.BLOCK_SETS)


def outside(shape):
    nodes = sum(shape.width(level) for level in range(shape.levels + 1) if can_be_evicted(shape, level))
    return shape.lines * shape.place + nodes * model.LINE


def above(shape):
    """How much more that is than the memory, in percent."""
    return 100 * (outside(shape) / shape.size - 1)


def on_chip(shape):
    ways = 2 * (model.LINE_SETS + model.BLOCK_SETS + shape.levels * model.NODE_SETS)
    return KEYS + ROOT + ways * model.LINE


def bound(shape):
    return 4 * (2 ** (shape.levels + 1) - 1) + 128


def of_round(shape, apart, stores, loads):
    """The accesses of one more round of stores, or of loads where there are any, over the fifth lines of four pages."""
    memory = model.Memory(shape)
    lines = [64 * apart * at + 5 for at in range(4)]
    for is_store in [True] * stores + [False] * loads:
        before = memory.total
        for line in lines:
            memory.touch(line, is_store)
    return (memory.total - before) // len(lines)


def misses(shape):
    """The accesses of a load and of a store: with the counter blocks cached, and over distant pages."""
    quarter = shape.width(0) // 4
    return [(of_round(shape, apart, 9, 9), of_round(shape, apart, 9, 0)) for apart in (1, quarter)]


def row(shape):
    (load, store), (far_load, far_store) = misses(shape)
    size = f"{outside(shape):,} | {above(shape):.1f} % | {on_chip(shape):,}"
    accesses = f"{load}, {far_load} | {store}, {far_store} | {bound(shape):,}"
    print(f"| {model.size_text(shape.size)} | {shape.layout} | {shape.levels} | {size} | {accesses} |")


def doublings(shape):
    return math.log2(shape.size / SMALLEST)


def plot(shapes):
    across = {at: model.size_text(SMALLEST << at) for at in range(0, 15, 2)}
    accesses, storage = {}, {}
    for layout in model.LAYOUTS:
        own = [shape for shape in shapes if shape.layout == layout]
        for at, name in enumerate(("load", "store")):
            accesses[f"{name}, layout {layout}"] = [(doublings(shape), misses(shape)[1][at]) for shape in own]
        storage[f"layout {layout}"] = [(doublings(shape), above(shape)) for shape in own]
    left = picture.draw("A miss in a loop over four distant pages", "memory", "accesses", accesses, across=across)
    right = picture.draw("Storage above the memory itself", "memory", "percent of the memory", storage, across=across)
    with open(PLOT, "w", encoding="utf-8") as file:
        file.write(picture.beside(left, right))


def main():
    parser = argparse.ArgumentParser(description=__doc__, formatter_class=argparse.RawDescriptionHelpFormatter)
    parser.add_argument("--plot", action="store_true", help="draw bench/layouts.svg, too")
    options = parser.parse_args()
    shapes = [shape for layout in model.LAYOUTS for shape in model.shapes(layout)]
    shapes.sort(key=lambda shape: (shape.size, shape.layout))
    print(HEAD)
    print("|---|---|---|---|---|---|---|---|---|")
    for shape in shapes:
        row(shape)
    if options.plot:
        plot(shapes)


if __name__ == "__main__":
    main()
