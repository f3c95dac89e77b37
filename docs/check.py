#!/usr/bin/env python3
"""Checks the documents against the repository, and prints `file:line: what` for each fault.

    docs/check.py [--no-commands] [--program PATH] [PAGE ..]
    docs/check.py --words

Of each page, or of those that are named: every link and anchor resolves; every *label*, `Definition`, crate and file that
it names exists, files in drawings too; a line that it quotes of a definition stands in the sources. README and the pages
that are written by hand keep to their words. The generated pages are current. Each field of the theorem's record has its row
in THEOREM and its place in PROOFS, each crate its row in CODE, and PROOFS counts the crates above each. The runs that
examples/attacks/README.md shows are those of test_gallery, except under `## Beside the test`. And each command that a page
shows after `$ ` prints what stands below it, but for reports and seconds, which are left out; each page's commands run one
after another in a folder of their own. They run the program that --program names, or `./chip`, which proves it first.

It ends with status 1 where there is a fault, else it prints one line. --no-commands leaves the commands out. --words prints
each page's words, and checks nothing. It needs Python 3 and what the commands need.
"""

import argparse
import fnmatch
import functools
import glob
import os
import re
import shutil
import subprocess
import sys
import tempfile

TOP = os.path.dirname(os.path.dirname(os.path.abspath(__file__)))
GALLERY = "examples/attacks/README.md"
TEST = "crates/test_gallery/src/tests.rt"
RECORDS = "crates/chip_run/specs/Run.antt"
THEOREM, PROOFS, CODE_PAGE = "docs/THEOREM.md", "docs/PROOFS.md", "docs/CODE.md"
GENERATED = ["docs/CONTRACTS.md", "docs/DEFINITIONS.md", *sorted(glob.glob("docs/definitions/*.md", root_dir=TOP))]
TRACES = "examples/traces/README.md"
PAIRS = "examples/pairs/README.md"
WITH_COMMANDS = ["README.md", "examples/README.md", GALLERY, TRACES, PAIRS, "docs/C-PROGRAMS.md", "docs/FORMATS.md", "bench/README.md"]
# CHANGELOG names what is gone; generated pages have their names from the sources.
WITHOUT_NAMES = ["CHANGELOG.md", *GENERATED]
README_WORDS, ALL_WORDS = 1700, 30000

# Words in *emphasis* that are no labels, and names in code font that the sources don't have.
EMPHASIS = set("and or not all no any some before after each first once one same this that only".split())
EMPHASIS |= set("adversary attack blank block clean collision copy counter dirty evidence fails false forgery hit".split())
EMPHASIS |= set("hold lasts line miss node numbered old page passes plain register reliable replay script splice tag".split())
EMPHASIS |= set("trace true victim".split())
OTHER_NAMES = set(
    """CMake Debian GitHub OpenSSL QEMU Rattle VirtAddr PhysAddr PT_LOAD MemAvailable LabelName NextAccess
    rust_src gdb_multiarch""".split()
)


def read(path):
    with open(os.path.join(TOP, path), encoding="utf-8") as file:
        return file.read()


def all_pages():
    found = ["README.md", "CONTRIBUTING.md", "CHANGELOG.md", *glob.glob("*/**/*.md", root_dir=TOP, recursive=True)]
    return [page for page in found if "/out/" not in page]


def by_hand():
    """The pages whose words are limited."""
    pages = sorted(glob.glob("docs/*.md", root_dir=TOP))
    return ["README.md"] + [page for page in pages if page not in GENERATED]


# --- the text of a page ----------------------------------------------------------------------------------------------


def lines_of(page):
    """Each line of a page: its number, its text, and whether it is code (in a fence, or indented by four in a block)."""
    fenced, after_blank, indented = False, True, False
    for number, line in enumerate(read(page).split("\n"), 1):
        is_fence = line.lstrip().startswith("```")
        indented = line.startswith("    ") and (after_blank or indented)
        yield number, line, fenced or is_fence or indented
        fenced ^= is_fence
        after_blank = not line.strip()


def prose_of(page):
    """The lines that aren't code, with their numbers."""
    return [(number, line) for number, line, is_code in lines_of(page) if not is_code]


CODE = re.compile(r"(`+)(.+?)\1")


def without_code(line):
    return CODE.sub(lambda match: " " * len(match[0]), line)


# --- links -----------------------------------------------------------------------------------------------------------

LINK = re.compile(r"\]\(([^()\s]+)\)")
HEADING = re.compile(r"^#{1,6}\s+(.*?)\s*#*$")


def slug(heading):
    """The anchor that GitHub makes of a heading."""
    text = re.sub(r"\[([^\]]*)\]\([^)]*\)", r"\1", heading)
    text = "".join(letter for letter in text.lower() if letter.isalnum() or letter in " -_")
    return text.replace(" ", "-")


@functools.lru_cache(maxsize=None)
def anchors(page):
    found, counts = set(re.findall(r'<a (?:id|name)="([^"]+)"', read(page))), {}
    for _, line in prose_of(page):
        match = HEADING.match(line)
        if match:
            name = slug(match[1])
            counts[name] = counts.get(name, -1) + 1
            found.add(f"{name}-{counts[name]}" if counts[name] else name)
    return found


def links(page):
    for number, line in prose_of(page):
        for target in LINK.findall(without_code(line)):
            if re.match(r"[a-z]+:", target):
                continue
            path, _, anchor = target.partition("#")
            there = os.path.normpath(os.path.join(os.path.dirname(page), path)) if path else page
            if not os.path.exists(os.path.join(TOP, there)):
                yield page, number, f"no file {target}"
            elif anchor and there.endswith(".md") and anchor not in anchors(there):
                yield page, number, f"no anchor {target}"


# --- names -----------------------------------------------------------------------------------------------------------

LABEL = re.compile(r"(?<![*\w])\*([a-z][a-z0-9_]*)\*(?![*\w])")
CLAUSE = re.compile(r"\b(?:ensures|requires)\s+(?:'\w+\s+)?([a-z][a-z0-9_]*)")
FIELD = re.compile(r"^\s*(?:pub )?([a-z][a-z0-9_]*) :", re.MULTILINE)
COMMENT = re.compile(r"(?://|--).*$", re.MULTILINE)
WORD = re.compile(r"[A-Za-z_][A-Za-z0-9_]*")
NAME = re.compile(r"^[A-Za-z_][A-Za-z0-9_]*(?:(?:::|\.)[A-Za-z_][A-Za-z0-9_]*)*$")
# What stands for any name: `IsX`, `x_of`, `specs/X.antt`, `NAME.script`.
PLACEHOLDER = re.compile(r"(?:^|[a-z/])X(?:$|View$|\.)|^x_|_x$|^NAME\.|<\w+>")
FILE = re.compile(r"^[\w./*+-]+\.(?:rt|antt|edit|py|md|script|s|c|cc|rs|svg|ld|bin|S|txt)$")
OF_CRATES = (".rt", ".antt", ".edit")
# The same in a drawing, and a call of a type there.
DRAWN_FILE = re.compile(r"[\w/*+-]*\w\.(?:rt|antt|edit)\b")
DRAWN_CALL = re.compile(r"\b[A-Z]\w*[a-z]\w*::\w+")


def sources(*kinds):
    """The files of the crates, in folders of these kinds."""
    for kind in kinds:
        for path in glob.glob(f"crates/*/{kind}/**/*", root_dir=TOP, recursive=True):
            if path.endswith((".rt", ".antt")):
                yield path


@functools.lru_cache(maxsize=None)
def labels():
    """Labels of clauses, and fields of records."""
    found = set()
    for path in sources("src", "specs"):
        text = COMMENT.sub("", read(path))
        found |= set(CLAUSE.findall(text))
        if path.endswith(".antt"):
            found |= set(FIELD.findall(text))
    return found


@functools.lru_cache(maxsize=None)
def crate_names():
    """All names in the crates' sources, and the crates' own."""
    found = set(os.listdir(os.path.join(TOP, "crates")))
    for path in sources("src", "specs", "proofs"):
        found |= set(WORD.findall(COMMENT.sub("", read(path))))
    return found


@functools.lru_cache(maxsize=None)
def all_names():
    """These, and the names in all other files that aren't pages."""
    found = set(crate_names())
    paths = ["chip", "crates.txt", *glob.glob("bench/*", root_dir=TOP), *glob.glob("docs/*.py", root_dir=TOP)]
    paths += [path for path in glob.glob("examples/**/*", root_dir=TOP, recursive=True)]
    for path in paths:
        if os.path.isfile(os.path.join(TOP, path)) and not path.endswith((".md", ".elf", ".bin", ".svg", ".rlib", ".o")):
            found |= set(WORD.findall(read(path)))
    return found | {os.path.splitext(os.path.basename(path))[0] for path in all_files()}


@functools.lru_cache(maxsize=None)
def all_files():
    """The paths of all files."""
    done = subprocess.run(["git", "ls-files", "-co", "--exclude-standard"], cwd=TOP, capture_output=True, text=True)
    return [path for path in done.stdout.splitlines() if os.path.exists(os.path.join(TOP, path))]


def is_file(page, name):
    """Whether there is such a file: by its path from the top or from the page, or by the end of its path."""
    places = [os.path.join(TOP, name), os.path.join(TOP, os.path.dirname(page), name)]
    return any(glob.glob(place) for place in places) or any(fnmatch.fnmatch(f"/{path}", f"*/{name}") for path in all_files())


def is_path(name):
    """Whether a word in code font is the path of a file of the repository."""
    is_ours = re.match(r"^(?:\.\./)*(?:crates|docs|bench|examples|\.ci)/[\w./*-]+$", name)
    return is_ours and "/out/" not in name and not name.endswith((".elf", "/mine.c"))


def is_known(name):
    parts = re.split(r"::|\.", name)
    if any(part in OTHER_NAMES for part in parts):
        return True
    if re.match(r"[A-Z]\w*[a-z]", parts[0]):
        return all(part in crate_names() for part in parts)
    return all(part in all_names() for part in parts)


def is_name(word):
    """Whether a word in code font is to be a name of the sources: it has a capital and small letters, or an underscore."""
    return NAME.match(word) and (re.match(r"[A-Z]\w*[a-z]", word) or "_" in word or "::" in word)


def names(page):
    if page in WITHOUT_NAMES:
        return
    for number, line in prose_of(page):
        for label in LABEL.findall(without_code(line)):
            if label not in labels() and label not in EMPHASIS:
                yield page, number, f"no label *{label}*"
        for _, code in CODE.findall(line):
            word = code.strip()
            if PLACEHOLDER.search(word):
                continue
            if is_path(word) and not is_file(page, word):
                yield page, number, f"no file `{word}`"
            elif word.endswith((*OF_CRATES, ".py", ".md", ".script")) and FILE.match(word) and not is_file(page, word):
                yield page, number, f"no file `{word}`"
            elif is_name(word) and not FILE.match(word) and not is_known(word):
                yield page, number, f"no name `{word}`"


@functools.lru_cache(maxsize=None)
def source_lines():
    """The lines of the crates' sources and definitions, without what stands before and behind them."""
    return {line.strip() for path in sources("src", "specs") for line in read(path).split("\n")}


def drawings(page):
    """What pages by hand quote and draw: lines of definitions, files and calls."""
    if page not in by_hand():
        return
    for number, line, is_code in lines_of(page):
        if not is_code:
            continue
        if line.strip().startswith("pub ") and line.strip() not in source_lines():
            yield page, number, f"no line {line.strip()!r} in the sources"
        for name in DRAWN_FILE.findall(line):
            if not is_file(page, name):
                yield page, number, f"no file {name}"
        if page == CODE_PAGE:
            for name in DRAWN_CALL.findall(line):
                if not is_known(name):
                    yield page, number, f"no name {name}"


# --- the theorem's record, and the crates ----------------------------------------------------------------------------

RECORD = re.compile(r"^pub record (\w+)")
OWN_FIELD = re.compile(r"^  pub (\w+) :")
# The groups of the theorem, whose fields THEOREM has rows of; and the field of RunsProtected that holds them, and what was printed.
EXPLAINED = ["KeepsBudget", "KeepsLists", "KeepsAccesses", "FollowsPlain", "KeepsPads", "CatchesLies", "TurnsOver", "ShowsEvidence"]
HEADS = {"printed", "ran"}


def fields():
    """Each field of the theorem's record, with its line and its record."""
    record = None
    for number, line in enumerate(read(RECORDS).split("\n"), 1):
        head, field = RECORD.match(line), OWN_FIELD.match(line)
        record = head[1] if head else record
        if field and (record in EXPLAINED or record == "RunsProtected"):
            yield number, field[1], record


def rows():
    """The fields that THEOREM has rows of, with their lines."""
    in_table = False
    for number, line in prose_of(THEOREM):
        if line.startswith("| field |"):
            in_table = True
        elif not line.startswith("|"):
            in_table = False
        elif in_table:
            for name in re.findall(r"`(\w+)`", line.split("|")[1]):
                yield number, name


def theorem():
    all_fields = list(fields())
    shown = {name for _, name in rows()}
    carried = {label for _, line in prose_of(PROOFS) for label in LABEL.findall(without_code(line))}
    for number, name, record in all_fields:
        if record in EXPLAINED and name not in shown:
            yield RECORDS, number, f"{THEOREM} has no row of {name}"
        if name not in HEADS and name not in carried:
            yield RECORDS, number, f"{PROOFS} doesn't name *{name}*"
    for number, name in rows():
        if name not in {field for _, field, record in all_fields if record in EXPLAINED}:
            yield THEOREM, number, f"no field `{name}` in {RECORDS}"


def crates():
    """Rows of CODE, and the counts of PROOFS."""
    uses = {name: set(below.split()) for name, _, below in (line.partition(":") for line in read("crates.txt").splitlines())}
    table = " ".join(line for _, line in prose_of(CODE_PAGE) if line.startswith("| `"))
    for number, name in enumerate(uses, 1):
        if f"`{name}`" not in table:
            yield "crates.txt", number, f"{CODE_PAGE} has no row of {name}"

    def above(crate):
        found = {name for name in uses if crate in uses[name]}
        return found.union(*map(above, found))

    counts = {name: len(above(name)) for name in uses}
    for number, line in prose_of(PROOFS):
        match = re.match(r"^\| (\d+) \| ((?:`\w+`(?:, )?)+) \|$", line)
        if match:
            named, counted = set(re.findall(r"\w+", match[2])), {name for name in uses if counts[name] == int(match[1])}
            for name in sorted(named ^ counted):
                yield PROOFS, number, f"{name} has {counts.get(name)} crates above it"


# --- words and generated pages ---------------------------------------------------------------------------------------


def words(page):
    return len(read(page).split())


def limits():
    if words("README.md") > README_WORDS:
        yield "README.md", 1, f"{words('README.md'):,} words, at most {README_WORDS:,}"
    total = sum(words(page) for page in by_hand())
    if total > ALL_WORDS:
        yield "README.md", 1, f"with docs {total:,} words by hand, at most {ALL_WORDS:,}"


def print_words():
    for page in by_hand():
        print(f"{words(page):>7,} {page}")
    print(f"{sum(words(page) for page in by_hand()):>7,} by hand, at most {ALL_WORDS:,}")
    for page in all_pages():
        if page not in by_hand():
            print(f"{words(page):>7,} {page}")


def generated():
    script = os.path.join(TOP, "docs/generate.py")
    if os.path.exists(script):
        done = subprocess.run([sys.executable, script, "--check"], capture_output=True, text=True)
        if done.returncode != 0:
            for line in (done.stdout + done.stderr).splitlines() or ["is not current"]:
                match = re.match(r"(\S+?):(\d+): (.*)", line)
                yield (match[1], int(match[2]), match[3]) if match else ("docs/generate.py", 1, line)


# --- commands --------------------------------------------------------------------------------------------------------

# What isn't the same in each run, and what `./chip` says of itself.
REPORT = re.compile(r"^(report [0-9a-f]{316,318}|chip: .*)\n", re.MULTILINE)
SECONDS = re.compile(r"\b\d+\.\d+(?= (?:seconds|s|µs)\b)")


def sessions(page):
    """Each command of a page: the number of its line, the command, the lines that it prints, and the section it is in."""
    command, section = None, ""
    for number, line, is_code in lines_of(page):
        shown = line[4:] if line.startswith("    ") else line
        heading = HEADING.match(line) if not is_code else None
        if heading and line.startswith("## "):
            section = heading[1]
        if command and (not is_code or line.startswith("```") or shown.startswith("$ ")):
            yield (*command, section)
            command = None
        if is_code and shown.startswith("$ "):
            command = number, shown[2:], []
        elif command:
            command[2].append(shown)
    if command:
        yield (*command, section)


def masked(text):
    return SECONDS.sub("N", REPORT.sub("", text))


def first_difference(printed, expected):
    for printed_line, expected_line in zip(printed + ["(its end)"], expected + ["(its end)"]):
        if printed_line != expected_line:
            return f"prints {printed_line!r} in place of {expected_line!r}"
    return "prints another number of lines"


def room(folder, program):
    """What commands find: `./chip`, the repository's folders, and examples of their own, which they may build."""
    os.symlink(os.path.abspath(program) if program else os.path.join(TOP, "chip"), os.path.join(folder, "chip"))
    for name in ("bench", "docs", "crates", "README.md"):
        os.symlink(os.path.join(TOP, name), os.path.join(folder, name))
    shutil.copytree(os.path.join(TOP, "examples"), os.path.join(folder, "examples"))


def commands(page, program):
    """The faults of a page's commands, and how many there are."""
    faults, count = [], 0
    with tempfile.TemporaryDirectory() as folder:
        room(folder, program)
        for number, command, shown, _ in sessions(page):
            count += 1
            done = subprocess.run(command, shell=True, cwd=folder, stdout=subprocess.PIPE, stderr=subprocess.STDOUT)
            printed = masked(done.stdout.decode(errors="replace"))
            expected = masked("".join(line + "\n" for line in shown))
            if printed != expected:
                what = first_difference(printed.splitlines(), expected.splitlines())
                faults.append((page, number, f"{command}: {what}"))
    return faults, count


# --- the gallery and its test ----------------------------------------------------------------------------------------

BESIDE = "Beside the test"
# In the test: a script, a run of one, and a field of that; and a program that is called otherwise there.
SCRIPT = re.compile(r'^(?:pub\(crate\) )?const (\w+): &\[u8\] =\s*b"([^"]*)";', re.MULTILINE)
ATTACK = re.compile(r"^    Attack \{\n(.*?)^    \},", re.MULTILINE | re.DOTALL)
ATTACK_FIELD = re.compile(r'^        (\w+): (?:b?"([^"]*)"|(\w+)),$', re.MULTILINE)
PROGRAMS = {"COLD_EXIT_7": "cold_exit7"}
RUN = re.compile(r"^\./chip run (\S+)(?: --flat)? --script (\S+)(?: --tags (\w+))?; echo \$\?$")


def attacks():
    """Of each run of a script that the gallery shows: its line; and program, tags, script, what is printed, what is told,
    status."""
    for number, command, shown, section in sessions(GALLERY):
        match = RUN.match(command)
        if match and section != BESIDE:
            program = os.path.splitext(os.path.basename(match[1]))[0]
            # Programs print letters A alone, and no line that is told begins with one.
            printed = re.match("A*", shown[0])[0]
            told = "".join(line + "\n" for line in shown[:-1])[len(printed) :]
            yield number, (program, match[3] or "hmac", read(match[2]), printed, told, shown[-1])


def literal(quoted):
    return quoted.replace("\\n", "\n").replace('\\"', '"')


def tested():
    """The same of the crate's test."""
    text = read(TEST)
    scripts = {name: literal(quoted) for name, quoted in SCRIPT.findall(text)}
    for block in ATTACK.finditer(text):
        is_ = {name: word or literal(quoted) for name, quoted, word in ATTACK_FIELD.findall(block[1])}
        program = PROGRAMS.get(is_["text"], is_["text"].lower())
        told = REPORT.sub("", is_["told"])
        number = text.count("\n", 0, block.start()) + 1
        yield number, (program, is_["tags"], scripts[is_["script"]], is_["printed"], told, is_["status"])


def gallery():
    shown, run = list(attacks()), list(tested())
    for number, attack in shown:
        if attack not in [other for _, other in run]:
            yield GALLERY, number, f"a run of {attack[0]} that {TEST} has not"
    for number, attack in run:
        if attack not in [other for _, other in shown]:
            yield TEST, number, f"a run of {attack[0]} that {GALLERY} has not"


# --- the command -----------------------------------------------------------------------------------------------------


def arguments():
    parser = argparse.ArgumentParser(description=__doc__, formatter_class=argparse.RawDescriptionHelpFormatter)
    parser.add_argument("pages", nargs="*", metavar="PAGE", help="pages, from the top; else all")
    parser.add_argument("--no-commands", action="store_true", help="run no command")
    parser.add_argument("--program", metavar="PATH", help="what ./chip is in commands")
    parser.add_argument("--words", action="store_true", help="print each page's words, and check nothing")
    options = parser.parse_args()
    options.pages = [os.path.relpath(os.path.abspath(page), TOP) for page in options.pages]
    for page in options.pages:
        if not os.path.isfile(os.path.join(TOP, page)):
            parser.error(f"no page {page}")
    if options.program and not os.access(options.program, os.X_OK):
        parser.error(f"no program {options.program}")
    return options


def main():
    options = arguments()
    if options.words:
        print_words()
        return 0
    pages, count = options.pages or all_pages(), 0
    faults = [fault for page in pages for check in (links, names, drawings) for fault in check(page)]
    if not options.pages:
        faults += [*limits(), *generated(), *theorem(), *crates()]
    if GALLERY in pages:
        faults += gallery()
    if not options.no_commands:
        for page in pages:
            if page in WITH_COMMANDS:
                found, more = commands(page, options.program)
                faults, count = faults + found, count + more
    for page, number, what in faults:
        print(f"{page}:{number}: {what}")
    if faults:
        return 1
    print(f"{len(pages)} pages and {count} commands: no fault")
    return 0


if __name__ == "__main__":
    sys.exit(main())
