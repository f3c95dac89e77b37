#!/usr/bin/env python3
"""Works out what each attack of the crate test_hostile comes to, and compares that with what its tests expect.

It is a model of the chip byte by byte, which shares no code with it: caches of two ways, counters, tree, HMAC by hashlib,
AES by the package cryptography, instructions by the manual (vectors.py), programs by GNU as. The adversary acts before an
access as docs/FORMATS.md says of scripts.

The table of attacks is three programs, five places, six actions and three triggers: 261 runs, under tags of each kind.
Saves are made before access 1, when all of the memory is zeros. The attacks on nodes are over a program whose counter blocks
and nodes go out, under tags of each kind too; so are those on the last places of a memory of 8 levels.

--gallery prints in place of that what each script of examples/attacks comes to, by the commands of its README, under the
layout that --layout names (1 or 2, default 1). It is no reader of scripts: it refuses none. --pairs prints what the pairs of
examples/pairs come to that name no order of turns, each side by itself under its own key.
"""

import argparse
import collections
import hashlib
import hmac
import os
import re
import subprocess
import sys
import tempfile

from cryptography.hazmat.primitives.ciphers import Cipher, algorithms, modes

import model
import vectors

TOP = os.path.dirname(os.path.dirname(os.path.abspath(__file__)))
TESTS = os.path.join(TOP, "crates", "test_hostile", "src")
TEXTS = os.path.join(TOP, "crates", "chip_cases", "src", "texts.rt")
GALLERY = os.path.join(TOP, "examples", "attacks", "README.md")
PAIRS = os.path.join(TOP, "examples", "pairs", "README.md")
DEVICE_KEY, SECOND_KEY = bytes(range(32)), bytes(range(32, 64))
LARGEST = model.Shape(1, 8)
NO_TAG = bytes(16)  # in the place of a tag: of a node that was never made, which is zeros and is not read


class Stopped(Exception):
    pass


# --- the memory outside, and who changes it --------------------------------------------------------------------------


def zeros(place):
    return bytes(80 if place[0] == "data" else 64)


class Bus:
    """Places by their names, as ("data", 5) or ("node", 1, 0); what is stored there, and what the chip wrote last."""

    def __init__(self, script):
        self.stored, self.written, self.registers = {}, {}, {}
        self.counts, self.accesses, self.lies = collections.Counter(), 0, 0
        self.script = [line.split(": ") for line in script.splitlines() if line]

    def at(self, place):
        return self.stored.get(place, zeros(place))

    def count(self, kind, place):
        self.accesses += 1
        self.counts[kind, place] += 1
        due = {f"access {self.accesses}", f"{kind} {named(place)} {self.counts[kind, place]}"}
        for trigger, action in self.script:
            if trigger in due:
                self.act(*action.split())

    def act(self, name, *words):
        if name in ("saveall", "restoreall"):
            register, places = words[0], []
        elif name in ("save", "restore"):
            register, places = words[0], places_of(words[1:])
        else:
            register, places = None, places_of(words)
        if name == "saveall":
            self.registers[register] = dict(self.stored)
        elif name == "restoreall":
            kept = self.registers.get(register)
            self.stored = dict(kept) if isinstance(kept, dict) else self.stored
        elif name == "save":
            self.registers[register] = (places[0][0], self.at(places[0]))
        elif name == "restore":
            kept = self.registers.get(register)
            if isinstance(kept, tuple) and kept[0] == places[0][0]:
                self.stored[places[0]] = kept[1]
        elif name == "swap":
            self.stored[places[0]], self.stored[places[1]] = self.at(places[1]), self.at(places[0])
        elif name == "put":
            self.stored[places[0]] = bytes.fromhex(words[-1]).ljust(len(zeros(places[0])), b"\0")
        else:
            before, offset, new = self.at(places[0]), int(words[-2]), bytes.fromhex(words[-1])
            old = before[offset : offset + len(new)]
            new = xored(old, new) if name == "flip" else new
            self.stored[places[0]] = before[:offset] + new + before[offset + len(new) :]

    def read(self, place):
        self.count("read", place)
        self.lies += self.at(place) != self.written.get(place, zeros(place))
        return self.at(place)

    def write(self, place, data):
        self.count("write", place)
        self.stored[place] = self.written[place] = data


def named(place):
    return " ".join(str(part) for part in place)


def places_of(words):
    """The places that stand first among words."""
    places, words = [], list(words)
    while words and words[0] in ("data", "node"):
        length = 2 if words[0] == "data" else 3
        places.append((words[0], *map(int, words[1:length])))
        words = words[length:]
    return places


def xored(left, right):
    return bytes(a ^ b for a, b in zip(left, right))


# --- the chip --------------------------------------------------------------------------------------------------------


class Cache:
    """Sets of two ways, of each the least recently used first. A way is [bytes, whether they were changed]."""

    def __init__(self, sets):
        self.sets = [{} for _ in range(sets)]

    def ways(self, place):
        return self.sets[place % len(self.sets)]

    def get(self, place):
        ways = self.ways(place)
        if place in ways:
            ways[place] = ways.pop(place)
        return ways.get(place)

    def victim(self, place):
        ways = self.ways(place)
        return next(iter(ways.items())) if len(ways) == 2 else (None, [None, False])

    def replace(self, victim, place, data):
        ways = self.ways(place)
        ways.pop(victim, None)
        ways[place] = [bytearray(data), False]
        return ways[place]


class Chip:
    """The protected memory. A slice of it inside one line is read and written as one of a bytearray."""

    def __init__(self, bus, tags, shape, device_key):
        self.bus, self.tags, self.shape, self.evidence = bus, tags, shape, []
        keys = {name: hmac.digest(device_key, name.encode(), "sha256") for name in ("enc", "data", "tree")}
        self.aes = Cipher(algorithms.AES(keys["enc"][:16]), modes.ECB()).encryptor()
        self.keys, self.made, self.last = keys, set(), {}
        self.lines = Cache(64)
        self.copies = [Cache(8 if level else 16) for level in range(shape.levels + 1)]
        self.root = NO_TAG

    def tag(self, key, message):
        """Of every tag the layout keeps what a slot keeps, and one bit is set, so that none is zeros."""
        if self.tags == "hmac":
            tag = hmac.digest(self.keys[key], message, "sha256")[:16]
        else:
            tag = self.keys[key][:16]
            for at in range(0, len(message), 16):
                tag = xored(tag, message[at : at + 16].ljust(16, b"\0"))
        last = self.shape.slot - 1
        return (tag[:last] + bytes([tag[last] | 1])).ljust(16, b"\0")

    def node_tag(self, level, index, block):
        return self.tag("tree", b"N" + bytes([level]) + index.to_bytes(4, "little") + block)

    def line_tag(self, line, page, count, cipher):
        name = line.to_bytes(4, "little") + page.to_bytes(8, "little") + bytes([count])
        return self.tag("data", b"D" + name + cipher)

    def make_node(self, level, index, block):
        self.last[level, index] = block
        self.bus.write(("node", level, index), block)
        return self.node_tag(level, index, block)

    def node(self, level, index):
        """The copy of a node, or of a counter block at level 0."""
        copy = self.copies[level].get(index)
        if copy:
            return copy
        victim, (old, changed) = self.copies[level].victim(index)
        if changed:
            parent, made = self.node(level + 1, self.shape.parent(victim)), self.make_node(level, victim, bytes(old))
            parent[0][self.slot(victim)], parent[1] = made[: self.shape.slot], True
        wanted = self.root
        if level < self.shape.levels:
            parent = self.node(level + 1, self.shape.parent(index))
            wanted = bytes(parent[0][self.slot(index)]).ljust(16, b"\0")
        block = bytes(64) if wanted == NO_TAG else self.read_node(level, index, wanted)
        return self.copies[level].replace(victim, index, block)

    def slot(self, index):
        """Where a node's parent keeps its tag."""
        begin = self.shape.slot * (index % self.shape.arity)
        return slice(begin, begin + self.shape.slot)

    def read_node(self, level, index, wanted):
        block = self.bus.read(("node", level, index))
        if self.node_tag(level, index, block) != wanted:
            raise Stopped(f"tampered node {level} {index}")
        made = self.last.get((level, index), block)
        if block != made and self.node_tag(level, index, made) == wanted:
            self.tell(f"collision node {level} {index}", f"made {made.hex()}", f"accepted {block.hex()}", f"tag {wanted.hex()}")
        return block

    def tell(self, first, *lines):
        self.evidence = self.evidence or ["evidence " + first, *lines]

    def read_line(self, line):
        block = self.node(0, line // 64)[0]
        page, count = int.from_bytes(block[:8], "little"), int.from_bytes(block[8:], "little") >> 7 * (line % 64) & 127
        if (page, count) == (0, 0):
            return bytes(64)
        sealed = self.bus.read(("data", line))
        cipher, tag = sealed[:64], sealed[64:]
        if self.line_tag(line, page, count, cipher) != tag:
            raise Stopped(f"tampered data {line}")
        if (line, page, count, cipher) not in self.made:
            self.tell(f"forgery data {line}", f"counter {page} {count}", f"cipher {cipher.hex()}", f"tag {tag.hex()}")
        return xored(cipher, self.pad(line, page, count))

    def write_line(self, line, plain):
        """An ordinary write; no line here is written more than 127 times."""
        copy = self.node(0, line // 64)
        block, at = copy[0], 7 * (line % 64)
        page, counts = int.from_bytes(block[:8], "little"), int.from_bytes(block[8:], "little")
        count = (counts >> at & 127) + 1
        assert count < 128
        block[8:], copy[1] = (counts + (1 << at)).to_bytes(56, "little"), True
        cipher = xored(plain, self.pad(line, page, count))
        self.made.add((line, page, count, cipher))
        self.bus.write(("data", line), cipher + self.line_tag(line, page, count, cipher))

    def pad(self, line, page, count):
        name = line.to_bytes(4, "little") + page.to_bytes(8, "little") + bytes([count])
        return b"".join(self.aes.update(name + bytes([piece, 0, 0])) for piece in range(4))

    def held(self, line):
        way = self.lines.get(line)
        if way:
            return way
        victim, (old, changed) = self.lines.victim(line)
        if changed:
            self.write_line(victim, bytes(old))
        return self.lines.replace(victim, line, self.read_line(line))

    def __getitem__(self, where):
        at = where.start % 64
        return bytes(self.held(where.start // 64)[0][at : at + where.stop - where.start])

    def __setitem__(self, where, data):
        way, at = self.held(where.start // 64), where.start % 64
        way[0][at : at + len(data)], way[1] = data, True


# --- a run -----------------------------------------------------------------------------------------------------------


def run(code, tags="hmac", script="", shape=model.Shape()):
    """What is printed, and what is told before the report."""
    return run_over(Bus(script), code, tags, shape)


def run_over(bus, code, tags="hmac", shape=model.Shape(), device_key=DEVICE_KEY):
    chip, printed, retired = Chip(bus, tags, shape, device_key), b"", 0
    registers, pc, ending = [0, 0, shape.size - 64] + [0] * 29, 0, None
    try:
        for at, byte in enumerate(code):
            chip[at : at + 1] = bytes([byte])
        while ending is None:
            word = int.from_bytes(chip[pc : pc + 4], "little")
            if word != 0x73:
                _, pc, registers = vectors.evaluate(word, pc, registers, chip)
            elif registers[17] == 93:
                ending = f"halted {registers[10]}"
            else:
                printed += b"".join(chip[at : at + 1] for at in range(registers[11], registers[11] + registers[12]))
                registers[10], pc = registers[12], pc + 4
            retired += 1
    except Stopped as stop:
        ending = str(stop)
    lines = [ending, f"retired {retired}", f"lies {bus.lies}", *chip.evidence]
    return printed.decode(), "".join(line + "\n" for line in lines)


def assembled(text):
    """The bytes of a text at address 0. The texts' numbers past 12 bits are written as the pair of `lui` and `addi`."""
    text = re.sub(r"li( +)(\w+), 0x1000", r"lui\1\2, 1\naddi\1\2, \2, 0", text)
    with tempfile.TemporaryDirectory() as folder:
        source, linked, flat = (os.path.join(folder, name) for name in ("text.s", "text.elf", "text.bin"))
        with open(source, "w") as file:
            file.write(".option norvc\n.option norelax\n.globl _start\n" + text)
        command = ["riscv64-unknown-elf-gcc", "-march=rv32im", "-mabi=ilp32", "-nostdlib", "-static"]
        subprocess.run(command + ["-Wl,-Ttext=0,-e0,--no-warn-rwx-segments", source, "-o", linked], check=True)
        subprocess.run(["riscv64-unknown-elf-objcopy", "-O", "binary", "-j", ".text", linked, flat], check=True)
        with open(flat, "rb") as file:
            return file.read()


# --- what the tests expect -------------------------------------------------------------------------------------------

FIELD = r'%s: b?"([^"]*)",'


def text_of(name):
    with open(name) as file:
        return file.read()


def literal(quoted):
    return re.sub(r"\\\n\s*", "", quoted).replace("\\n", "\n")


def structs(text, kind):
    """The fields of each constant of a struct that has texts alone."""
    for block in re.findall(r"^    %s \{\n(.*?)^    \}," % kind, text, re.MULTILINE | re.DOTALL):
        fields = {name: literal(quoted) for name, quoted in re.findall(r'(\w+): b?"([^"]*)",', block)}
        fields["words"] = re.findall(r'"(\w+)"', (re.search(r"actions: &\[(.*?)\]", block, re.DOTALL) or [""])[0])
        yield fields


def constants(text):
    return {name: literal(quoted) for name, quoted in re.findall(r'^const (\w+): &\[u8\] = b"([^"]*)";', text, re.MULTILINE)}


def table(text):
    """The runs of the table: program, trigger and action, and the script."""
    triggers = re.findall(r'"((?:read|write) @ \d: )"', text)
    for program in ("store_and_print", "store_twice", "store_200_times"):
        for place in structs(text, "Place"):
            digits = "5a" * (80 if place["name"].startswith("data") else 64)
            for trigger in triggers:
                for action in structs(text, "Action"):
                    if action["name"] == "swap" and not place["other"]:
                        continue
                    fill = lambda template: template.replace("@", place["name"]).replace("%", place["other"]).replace("#", digits)
                    yield program, fill(trigger), action["name"], fill(action["saved"] + trigger + action["done"])


def block_of(text, name):
    """A constant that is a list."""
    return re.search(r"^const %s: .*?^\];" % name, text, re.MULTILINE | re.DOTALL)[0]


def texts_of(text, name):
    """The texts in it, in order."""
    return [literal(quoted) for quoted in re.findall(r'b"([^"]*)"', block_of(text, name))]


def rows_of(text, name):
    """What the rows of a constant say of runs: program, trigger and action, and what is printed and told."""
    for row in structs(block_of(text, name), "Lied"):
        for action in row["words"]:
            yield (row["program"], row["trigger"], action), (row["printed"], row["told"])


def check_table(text, programs, tags):
    plain = {name: run(code) for name, code in programs.items()}
    shown = {row["name"]: (row["printed"], row["told"]) for row in structs(text, "Program")}
    faults = [f"{name} comes to {plain[name]}, and not {shown.get(name)}" for name in programs if plain[name] != shown.get(name)]
    expected = dict(rows_of(text, "CAUGHT"))
    counts = collections.Counter()
    for program, trigger, action, script in table(text):
        came, wanted = run(programs[program], tags, script), expected.pop((program, trigger, action), plain[program])
        counts["same" if came == plain[program] else "caught"] += 1
        if came != wanted:
            faults.append(f"{program}, {tags}, {trigger}{action} comes to {came}, and not {wanted}")
    faults += [f"no such run: {key}" for key in expected]
    print(f"{sum(counts.values())} runs with the tags {tags}: {dict(counts)}")
    return faults


def check_places(text, code, shape):
    """The runs of node_attacks.rt or last_places.rt: under which tags and by which script, and what is told."""
    caught, mended = texts_of(text, "CAUGHT"), texts_of(text, "MENDED")
    runs = [(tags, script, told) for script, told in zip(caught[::2], caught[1::2]) for tags in ("hmac", "xor")]
    runs += [("hmac", script, run(code, shape=shape)[1]) for script in texts_of(text, "UNSEEN")]
    for script, told, passed in zip(mended[::3], mended[1::3], mended[2::3]):
        runs += [("hmac", script, told), ("xor", script, passed)]
    print(f"{len(runs)} runs of attacks on places of {shape.levels} levels")
    came = [(tags, script, run(code, tags, script, shape)[1]) for tags, script, _ in runs]
    return [f"{was} comes to {is_[2]!r}" for was, is_ in zip(runs, came) if was != is_]


def check_cases(text, programs):
    """The runs of attacks.rt by their scripts: what each comes to is to stand in it."""
    forge = constants(text)["FORGE"]
    back = "write node 0 0 1: saveall 3\nread node 0 0 1: restoreall 3\n"
    lines = "access 1: swap data 5 data 6\nread data 5 1: flip data 5 0 01\n"
    runs = [("store_and_print", "hmac", script) for script in (*texts_of(text, "NO_LIES"), 500 * lines, 501 * lines)]
    runs += [("read_untouched", "hmac", back)]
    runs += [("copy_beside", "xor", ""), ("copy_beside", "hmac", forge), ("copy_beside", "xor", forge)]
    faults, told = [], {literal(quoted) for quoted in re.findall(r'b"([^"]*)"', text)}
    for name, tags, script in runs:
        came = run(programs[name], tags, script)
        if came[1] not in told or came[0] not in told:
            faults.append(f"{name}, {tags}, {script[:60]!r} comes to {came}")
    print(f"{len(runs)} runs one by one")
    return faults


def check_small(text, programs):
    """The runs of the programs of four levels in the largest memory: the program, the tags, the script, and what it comes to."""
    row = r'text: (\w+),\s+tags: "(\w+)",\s+script: b"([^"]*)",\s+printed: b"([^"]*)",\s+told: b"([^"]*)",'
    rows = [(name.lower(), tags, *map(literal, rest)) for name, tags, *rest in re.findall(row, block_of(text, "SMALL"))]
    came = [run(programs[name], tags, script, LARGEST) for name, tags, script, *_ in rows]
    print(f"{len(rows)} runs of {LARGEST.levels} levels")
    return [f"{was} comes to {is_}" for was, is_ in zip(rows, came) if was[3:] != is_]


# --- the gallery -----------------------------------------------------------------------------------------------------

SHOWN = re.compile(r"^    \$ \./chip run (\w+)\.elf --script (\S+)(?: --tags (\w+))?; echo", re.MULTILINE)


def gallery(shape):
    for name, path, tags in SHOWN.findall(text_of(GALLERY)):
        printed, told = run(example(name), tags or "hmac", script_in(path), shape)
        print(f"{os.path.basename(path)}, {name}, {tags or 'hmac'}: {printed + told}", end="")


def example(name):
    return assembled(text_of(os.path.join(TOP, "examples", name + ".s")))


def script_in(path):
    return "".join(line for line in text_of(os.path.join(TOP, path)).splitlines(True) if not line.startswith("#"))


# --- pairs -----------------------------------------------------------------------------------------------------------

PAIRED = re.compile(r"^    \$ \./chip pair (\w+)\.elf (\w+)\.elf((?: --\w+ [^\s;]+)*)", re.MULTILINE)
# The script that the page makes: line 5 is answered with what the first program wrote there under the first default key.
MADE, COPIED = "copy_across.script", ("data", 5)


def pairs():
    for first, second, words in PAIRED.findall(text_of(PAIRS)):
        options = dict(re.findall(r"--(\w+) (\S+)", words))
        if "order" in options:
            continue
        keys = [bytes.fromhex(options.get(name, key.hex())) for name, key in (("key", DEVICE_KEY), ("key2", SECOND_KEY))]
        scripts = [script_of_pair(options.get(name), first) for name in ("script", "script2")]
        if keys[0] == keys[1]:
            print(f"{first}, {second}{words}: usage keys")
            continue
        sides = [run_over(Bus(script), example(name), device_key=key) for name, script, key in zip((first, second), scripts, keys)]
        print(f"{first}, {second}{words}: {sides[0][0]}{sides[1][0]}{sides[0][1]}second\n{sides[1][1]}", end="")


def script_of_pair(path, first):
    if path != MADE:
        return script_in(path) if path else ""
    bus = Bus("")
    run_over(bus, example(first))
    return f"read {named(COPIED)} 1: put {named(COPIED)} {bus.written[COPIED].hex()}\n"


def check():
    names = ("attack_table.rt", "attacks.rt", "node_attacks.rt", "last_places.rt")
    attack_table, attacks, node_attacks, last_places = (text_of(os.path.join(TESTS, name)) for name in names)
    sources = text_of(TEXTS) + attacks + last_places
    texts = re.findall(r'^(?:pub )?const (\w+): &\[u8\] = b"([^"]*)";', sources, re.MULTILINE)
    codes = {name.lower(): assembled(literal(text)) for name, text in texts if "ecall" in text}
    programs = {name: codes[name] for name in ("store_and_print", "store_twice", "store_200_times")}
    faults = [fault for tags in ("hmac", "xor") for fault in check_table(attack_table, programs, tags)]
    faults += check_cases(attacks, codes) + check_places(node_attacks, codes["store_far_apart"], model.Shape())
    faults += check_places(last_places, codes["store_last"], LARGEST) + check_small(last_places, codes)
    if faults:
        sys.exit("\n".join(faults))


def main():
    parser = argparse.ArgumentParser(description=__doc__, formatter_class=argparse.RawDescriptionHelpFormatter)
    parser.add_argument("--gallery", action="store_true", help="what the scripts of examples/attacks come to")
    parser.add_argument("--layout", type=int, choices=model.LAYOUTS, default=1, metavar="N", help="1 or 2, default 1")
    parser.add_argument("--pairs", action="store_true", help="what the pairs of examples/pairs come to")
    options = parser.parse_args()
    if options.pairs:
        pairs()
    elif options.gallery:
        gallery(model.Shape(options.layout))
    else:
        check()


if __name__ == "__main__":
    main()
