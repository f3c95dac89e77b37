#!/usr/bin/env python3
"""Makes docs/CONTRACTS.md, docs/DEFINITIONS.md and docs/definitions/ from the crates.

CONTRACTS has each public call with its docstring, its signature and the clauses of its contract, each under the comment
line that stands above it. The folder `definitions` has a page for each crate: each public definition of its specs, with
the comment above it. DEFINITIONS is their index.

    docs/generate.py            writes all pages, and removes those of crates that are gone
    docs/generate.py --check    writes nothing, and ends with 1 where a page is not what would be written
    docs/generate.py --missing  lists public calls without a docstring and definitions without a comment, and ends with
                                1 where there are any
"""

import re
import sys
import textwrap
from dataclasses import dataclass, field
from pathlib import Path

DOCS = Path(__file__).resolve().parent
ROOT = DOCS.parent
CONTRACTS = "CONTRACTS.md"
DEFINITIONS = "DEFINITIONS.md"
BY_CRATE = "definitions"

# A clause or a member is put in the line of its name where it is no longer than this.
ONE_LINE = 100

# Text is broken into lines of so many signs.
WIDTH = 120

CONTRACTS_HEAD = """\
# Contracts

`docs/generate.py` writes this page from `crates/*/src`: public calls, with their clauses, and types. To change it,
change the source.

How to read a contract:

- The caller owes each `requires`; the call then owes each `ensures`. A clause follows its label.
- `result` is the answer. Of an argument lent to be read, `.now` is the value. Of one lent to be changed, `.old` is the
  value before the call and `.new` the one after it.
- `IfOk result (λ x. fact)` states a fact of the value x of an Ok. `OnOk result fact` states it where the result is an
  Ok, `OnErr result fact` where it is an Err.
- `T.name` is what type `T` has for `name` of its trait.
- `≡` equals, `×` and, `⊎` or, `→` implies, `↔` if and only if, `λ x.` a function, `(x : A) →` for every x.
"""

DEFINITIONS_HEAD = """\
# Definitions

`docs/generate.py` writes this page and those of the crates from `crates/*/specs`: public definitions with the comments
above them. To change them, change the source. [CONTRACTS](CONTRACTS.md) uses these names. [All names](#all-names) stand
below.

How to read a definition:

- Its first line has the name and the type. A type that ends in `Type 0` marks a fact; any other, a value.
- A record of facts holds where all its fields hold. Another record is a value with these fields.
- A law is shown by its statement alone, without its proof.
- `≡` equals, `×` and, `⊎` or, `→` implies, `(x : A) →` for every x, `(x : A) ×` for some x, `λ x.` a function. `∷` puts
  an element in front of a list, and `++` joins two.
"""

CRATE_HEAD = """\
# Definitions of {crate}

{about} [CONTRACTS](../CONTRACTS.md#{crate}) has its calls, [DEFINITIONS](../DEFINITIONS.md) all names, and how to read
a definition. `docs/generate.py` writes this page.
"""


# ---- What is read from the crates


@dataclass
class Imports:
    """The definitions that a source names in its clauses: by their own names, and by the names of their modules."""

    names: dict
    modules: dict


@dataclass
class Clause:
    kind: str
    label: str
    lines: list


@dataclass
class Group:
    """Clauses of one kind that stand together, and the comment above the first."""

    kind: str
    comment: str
    clauses: list = field(default_factory=list)


@dataclass
class Call:
    name: str
    doc: list
    signature: list
    groups: list
    source: object
    line: int
    trait: str

    def facts(self):
        return [line for group in self.groups for clause in group.clauses for line in clause.lines]


@dataclass
class Member:
    """A meaning, a law, or what a type gives for one: `ghost NAME`."""

    name: str
    doc: list
    lines: list


@dataclass
class PublicType:
    name: str
    doc: list
    declaration: list
    source: object
    line: int
    members: list = field(default_factory=list)
    impls: list = field(default_factory=list)
    calls: list = field(default_factory=list)

    def facts(self):
        members = self.members + [member for _, members in self.impls for member in members]
        return [line for member in members for line in member.lines]

    def says_something(self):
        return bool(self.declaration or self.members or self.impls or self.calls)


@dataclass
class Definition:
    name: str
    comment: list
    lines: list
    path: Path
    line: int


@dataclass
class SpecFile:
    path: Path
    head: str
    definitions: list


@dataclass
class Crate:
    name: str
    about: str
    items: list
    specs: list


class ParseError(Exception):
    pass


def crate_names():
    """The crates, in the order of crates.txt: a crate after those that it uses."""
    lines = (ROOT / "crates.txt").read_text(encoding="utf-8").splitlines()
    return [line.split(":")[0].strip() for line in lines if line.strip() and not line.startswith("#")]


def shown(path, line):
    return f"{path.relative_to(ROOT)}:{line + 1}"


def dedented(lines):
    """The lines without the indentation that all of them have, and without blank lines at the ends."""
    lines = [line.rstrip() for line in lines]
    while lines and not lines[0]:
        lines = lines[1:]
    while lines and not lines[-1]:
        lines = lines[:-1]
    depth = min((len(line) - len(line.lstrip()) for line in lines if line), default=0)
    return [line[depth:] for line in lines]


# ---- Sources: public calls and types

OPAQUE = re.compile(r"""//[^\n]*|"(?:\\.|[^"\\])*"|'(?:\\[^\n]*?|[^\\'\n])'""", re.DOTALL)
TYPE = re.compile(r"pub (struct|enum|trait) (\w+)")
FUNCTION = re.compile(r"(pub )?fn (\w+)")
IMPL = re.compile(r"impl\b(?:<.*?>)? ?(?:([\w:<>, ]+) for )?([\w:]+)")
CLAUSE = re.compile(r"(requires|ensures)\s+(?:([\w']+)\s*)?\{")
IMPORT = re.compile(r"ghost use Rattle\.(\w+)\.specs\.(\w+)(?:\.\{([^}]*)\}| as (\w+));")
MEMBER = re.compile(r"ghost (\w+)(?::| =) \{")


def masked(text):
    """The text with spaces for comments, strings and characters, so that its braces are those of the code."""
    return OPAQUE.sub(lambda m: re.sub(r"[^\n]", " ", m.group()), text)


def imports_of(text):
    names, modules = {}, {}
    for found in IMPORT.finditer(text):
        crate, module, listed, alias = found.groups()
        if alias:
            modules[alias] = (crate, module)
        for each in (listed or "").split(","):
            name, _, other = each.strip().partition(" as ")
            names[other or name] = (crate, module, name)
    return Imports(names, modules)


class Source:
    """A file of Rust: its lines, and how many braces are open at the start of each."""

    def __init__(self, path):
        self.path = path
        text = path.read_text(encoding="utf-8")
        self.lines = text.splitlines()
        self.code = masked(text).splitlines()
        self.imports = imports_of(text)
        self.depths = [0]
        for code in self.code:
            self.depths.append(self.depths[-1] + code.count("{") - code.count("}"))

    def head(self):
        """What its first comment says. A crate's root has another one, which is the crate's."""
        head = []
        for line in self.lines:
            if not line.startswith("// "):
                break
            head.append(line[3:].strip())
        return " ".join(head)

    def end_of(self, at):
        """The line after the block that is opened on this line or a later one."""
        end = at
        while "{" not in self.code[end] and ";" not in self.code[end]:
            end += 1
        while self.depths[end + 1] > self.depths[at]:
            end += 1
        return end + 1

    def above(self, at):
        """The docstring above a line, and whether it is for tests alone."""
        doc, is_test = [], False
        while at > 0 and self.lines[at - 1].strip().startswith(("///", "//", "#[")):
            at -= 1
            line = self.lines[at].strip()
            if line.startswith("///"):
                doc.insert(0, line[3:].removeprefix(" "))
            is_test = is_test or line.startswith("#[cfg(test)]")
        return doc, is_test

    def braced(self, at):
        """What stands between the braces that open on this line, and the line on which they close."""
        end = self.end_of_braces(at)
        text = "\n".join(self.lines[at : end + 1])
        inner = text[text.index("{") + 1 : text.rindex("}")]
        first, *rest = inner.rstrip().split("\n")
        return [first.strip()] + beside(rest) if first.strip() else dedented(rest), end

    def end_of_braces(self, at):
        open_braces, end = 0, at
        while True:
            open_braces += self.code[end].count("{") - self.code[end].count("}")
            if open_braces == 0:
                return end
            end += 1


def beside(rest):
    """Lines after a first one, each as it stood to the others: indented by four, unless the last one closes a brace."""
    rest = dedented(rest)
    depth = "" if rest and rest[-1].startswith(("}", ")")) else "    "
    return [depth + line if line else "" for line in rest]


def signature_of(source, at):
    """The lines of a signature, and the line after it, where a contract or a body begins."""
    lines = []
    while True:
        line = source.lines[at]
        text = line.strip()
        if lines and (text.startswith(("requires ", "ensures ", "{", "//")) or not text):
            return dedented(lines), at
        if text.endswith("{}"):
            return dedented(lines + [line.rstrip()[:-2]]), at
        if text.endswith(("{", ";")):
            return dedented(lines + [line.rstrip()[:-1]]), at
        lines.append(line)
        at += 1


def contract_of(source, at):
    """The clauses from this line on, in groups as comments and blank lines part them."""
    groups, comment, parted = [], [], True
    while True:
        text = source.lines[at].strip()
        clause = CLAUSE.match(text)
        if clause:
            kind, label = clause.group(1), clause.group(2) or ""
            lines, end = source.braced(at)
            if parted or groups[-1].kind != kind:
                groups.append(Group(kind, " ".join(comment)))
                comment, parted = [], False
            groups[-1].clauses.append(Clause(kind, label, lines))
            if source.code[end].rstrip().endswith(";"):
                return groups
            at = end
        elif text.startswith("//"):
            comment.append(text[2:].strip())
            parted = True
        elif not text:
            parted = True
        elif text.startswith("{") or text.endswith((";", "{", "{}")):
            return groups
        else:
            raise ParseError(f"{shown(source.path, at)}: not a clause: {text}")
        at += 1


def call_of(source, at, owner, trait):
    name = FUNCTION.match(source.lines[at].strip()).group(2)
    doc, _ = source.above(at)
    signature, body = signature_of(source, at)
    full_name = f"{owner}::{name}" if owner else name
    return Call(full_name, doc, signature, contract_of(source, body), source, at, trait)


def inner_items(source, at, end):
    """The lines of a block at which its own functions and members begin."""
    inside = source.depths[at] + 1
    for line in range(at + 1, end):
        if source.depths[line] == inside:
            yield line, source.lines[line].strip()


def members_of(source, at, end):
    members = []
    for line, text in inner_items(source, at, end):
        found = MEMBER.match(text)
        if found:
            members.append(Member(found.group(1), source.above(line)[0], source.braced(line)[0]))
    return members


def calls_of(source, at, end, owner, all_of_them, trait):
    calls = []
    for line, text in inner_items(source, at, end):
        found = FUNCTION.match(text)
        if found and (found.group(1) or all_of_them) and not source.above(line)[1]:
            calls.append(call_of(source, line, owner, trait))
    return calls


def is_data(kind, lines):
    """Whether a type is one whose parts are public: an enum, or a struct with a public field."""
    return kind == "enum" or kind == "struct" and len(re.findall(r"\bpub\b", "\n".join(lines))) > 1


def public_type(source, at):
    kind, name = TYPE.match(source.lines[at]).groups()
    end = source.end_of(at)
    doc, _ = source.above(at)
    lines = source.lines[at:end]
    found = PublicType(name, doc, dedented(lines) if is_data(kind, lines) else [], source, at)
    if kind == "trait":
        found.members = members_of(source, at, end)
        found.calls = calls_of(source, at, end, name, True, "")
    return found


def trait_name(trait):
    """The name of a trait without the path before it, and nothing where there is none."""
    return re.sub(r"^(\w+::)+", "", trait or "")


def add_impl(source, at, types):
    """Puts the calls and members of an impl to its type, where the type is public."""
    found = IMPL.match(source.lines[at])
    name = found.group(2).split("::")[-1] if found else ""
    if name not in types:
        return
    trait, owner = trait_name(found.group(1)), types[name]
    end = source.end_of(at)
    members = members_of(source, at, end)
    if members:
        owner.impls.append((trait, members))
    calls = calls_of(source, at, end, owner.name, bool(trait), trait)
    owner.calls += [call for call in calls if call.groups or not trait]


def modules_of(root):
    """The modules of a crate's root that are no tests, and the names that it gives out of each."""
    modules, given = [], {}
    for at, line in enumerate(root.lines):
        found = re.match(r"(pub )?mod (\w+);", line)
        if found and not root.above(at)[1]:
            modules.append(found.group(2))
            if found.group(1):
                given[found.group(2)] = None
    for found in re.finditer(r"^pub use (\w+)::(?:\{([^}]*)\}|(\w+));", "\n".join(root.lines), re.MULTILINE):
        names = re.findall(r"\w+", found.group(2) or found.group(3))
        if given.setdefault(found.group(1), set()) is not None:
            given[found.group(1)].update(names)
    return modules, given


def is_given_type(line, names):
    """Whether a public type that the crate gives out begins on this line; `names` are those given, or None for all."""
    found = TYPE.match(line)
    return bool(found) and (names is None or found.group(2) in names)


def is_given_function(line, names):
    found = FUNCTION.match(line)
    return bool(found) and bool(found.group(1)) and (names is None or found.group(2) in names)


def items_of(folder, root):
    """The public types and functions of a crate, in the order of its modules."""
    modules, given = modules_of(root)
    sources = [(root, None)]
    for module in modules:
        path = folder / "src" / f"{module}.rt"
        sources.append((Source(path), given.get(module, set())))
    items, types = [], {}
    for source, names in sources:
        for at, line in enumerate(source.lines):
            if source.depths[at] or source.above(at)[1]:
                continue
            if is_given_type(line, names):
                found = public_type(source, at)
                items.append(found)
                types[found.name] = found
            elif is_given_function(line, names):
                items.append(call_of(source, at, "", ""))
    for source, _ in sources:
        for at, line in enumerate(source.lines):
            if line.startswith("impl") and not source.depths[at] and not source.above(at)[1]:
                add_impl(source, at, types)
    return [item for item in items if isinstance(item, Call) or item.says_something()]


# ---- Specs: public definitions

STARTS = re.compile(r"(?:abbrev|unfoldable|pub|use|module|infix[lr]?)\b|\S+ : ")
PUBLIC = re.compile(r"(?:(abbrev|unfoldable) )?pub (?:(record|data) )?(\S+)")


def indentation(line):
    return len(line) - len(line.lstrip())


def is_comment(line):
    return line.strip().startswith("--")


def ends_definition(lines, at, depth):
    """Whether a definition ends before this line: at another declaration, or at comments and blank lines before one."""
    while at < len(lines) and (not lines[at].strip() or is_comment(lines[at]) and indentation(lines[at]) <= depth):
        at += 1
    if at == len(lines) or indentation(lines[at]) < depth:
        return True
    return indentation(lines[at]) == depth and bool(STARTS.match(lines[at].strip()))


def definition_lines(lines, at):
    depth, end = indentation(lines[at]), at + 1
    while end < len(lines) and not ends_definition(lines, end, depth):
        end += 1
    return dedented(lines[at:end])


def statement_alone(lines):
    """The statement of a law: its lines up to the first equation of its proof."""
    kept = [lines[0]]
    for line in lines[1:]:
        if indentation(line) == 0:
            break
        kept.append(line)
    return kept


def within_modules(lines, at, body):
    """A definition below the heads of the modules that it stands in, whose parameters it has too."""
    depth, heads = indentation(lines[at]), []
    while depth:
        at -= 1
        if lines[at].strip() and indentation(lines[at]) < depth:
            depth = indentation(lines[at])
            heads.insert(0, lines[at])
    return heads + ["  " * len(heads) + line for line in body]


def comment_above(lines, at):
    """The comment above a definition, past the line that says how an operator binds."""
    depth, comment = indentation(lines[at]), []
    while at > 0 and (lines[at - 1].strip().startswith(("--", "infix"))) and indentation(lines[at - 1]) == depth:
        at -= 1
        text = lines[at].strip()
        if text.startswith("-- ----"):
            break
        if text.startswith("--"):
            comment.insert(0, text[2:].strip())
    return comment


def definitions_of(path):
    lines = path.read_text(encoding="utf-8").splitlines()
    found, inside_record = [], None
    for at, line in enumerate(lines):
        text, depth = line.strip(), indentation(line)
        if not text or text.startswith("--"):
            continue
        if inside_record is not None and depth > inside_record:
            continue
        inside_record = None
        match = PUBLIC.match(text)
        if not match or match.group(3) in ("mod", "use"):
            continue
        how, form, name = match.groups()
        body = definition_lines(lines, at)
        if form:
            inside_record = depth
        elif not how:
            body = statement_alone(body)
        found.append(Definition(name, comment_above(lines, at), within_modules(lines, at, body), path, at))
    return found


def spec_file(path):
    """A file of definitions: what its first comment says, where that is of the file, and its definitions."""
    lines = path.read_text(encoding="utf-8").splitlines()
    head = []
    for line in lines:
        if not line.startswith("--"):
            break
        head.append(line[2:].strip())
    is_of_file = len(head) < len(lines) and (not lines[len(head)].strip() or lines[len(head)].startswith("use "))
    return SpecFile(path, " ".join(head) if is_of_file else "", definitions_of(path))


def specs_of(folder):
    paths = sorted(path for path in (folder / "specs").rglob("*.antt") if "declared" not in path.parts)
    files = [spec_file(path) for path in paths]
    return [file for file in files if file.definitions]


def read_crate(name):
    folder = ROOT / "crates" / name
    root = next(path for path in (folder / "src" / "lib.rt", folder / "src" / "main.rt") if path.exists())
    source = Source(root)
    about = " ".join(line[3:].strip() for line in source.lines if line.startswith("//!") and line[3:].strip())
    items = items_of(folder, source) if root.name == "lib.rt" else []
    return Crate(name, about, items, specs_of(folder))


# ---- Pages


class Page:
    """A page in the making: its lines, and the anchors that GitHub gives its headings."""

    def __init__(self, head):
        self.lines = []
        self.taken = {}
        self.anchors = {}
        self.add(head.rstrip("\n"))
        self.anchor(head.split("\n")[0].lstrip("# "))

    def add(self, *blocks):
        """Appends blocks, each with a blank line before it."""
        for block in blocks:
            if self.lines:
                self.lines.append("")
            self.lines += block.split("\n") if isinstance(block, str) else block

    def anchor(self, title):
        slug = re.sub(r"[^\w\- ]", "", title.lower()).replace(" ", "-")
        anchor, count = slug, self.taken.get(slug)
        if count is not None:
            while anchor in self.taken:
                count += 1
                anchor = f"{slug}-{count}"
            self.taken[slug] = count
        self.taken[anchor] = 0
        return anchor

    def heading(self, depth, title):
        self.add("#" * depth + " " + title)
        anchor = self.anchor(title)
        self.anchors.setdefault(title, anchor)
        return anchor

    def text(self):
        return "\n".join(self.lines) + "\n"


def code_block(lines, language="text"):
    return [f"```{language}"] + lines + ["```"]


def escaped(text):
    """Plain text as Markdown: signs that Markdown would read stand behind a backslash, except in code."""
    pieces = text.split("`")
    pieces[::2] = [re.sub(r"[\\<*|]", r"\\\g<0>", piece) for piece in pieces[::2]]
    return "`".join(pieces)


def wrapped(text):
    """The lines of a paragraph, of which none begins as a list, a heading or a quotation would."""
    lines = textwrap.wrap(text, WIDTH, break_long_words=False, break_on_hyphens=False)
    return [re.sub(r"^([-+>#]|\d+(?=[.)]))(?=[ .)])", begin_plain, line) for line in lines]


def begin_plain(found):
    return found.group() + "\\" if found.group().isdigit() else "\\" + found.group()


def item(name, lines, note=""):
    """An item of a list: a name and a fact, in its line or in a block below it."""
    start = f"- *{name}*:" if name else "-"
    start = f"{start} {note}" if note else start
    one_line = " ".join(line.strip() for line in lines)
    if len(one_line) <= ONE_LINE:
        return [f"{start} `{one_line}`"]
    return [start] + ["  " + line if line else "" for line in [""] + code_block(lines)] + [""]


def list_of(items):
    lines = [line for each in items for line in each]
    while lines and not lines[-1]:
        lines.pop()
    return lines


def definition_links(facts, source, places):
    """Links to the definitions that some facts name, in the order in which these come."""
    links = {}
    for line in facts:
        for word in re.findall(r"[\w'-]+(?:\.[\w'-]+)?", line):
            first, _, second = word.partition(".")
            imported = source.imports.names.get(first)
            if first in source.imports.modules and second:
                imported = (*source.imports.modules[first], second)
            if imported in places:
                links[imported] = f"[`{imported[2]}`]({places[imported]})"
    return list(links.values())


def add_definitions(page, facts, source, places):
    links = definition_links(facts, source, places)
    if links:
        page.add(wrapped("Definitions: " + ", ".join(links) + "."))


def origin(path, head, top):
    """Which file the items below come from, and what it says of itself; `top` leads from the page to the repository."""
    return wrapped(f"From [{path.name}]({top}/{path.relative_to(ROOT)})" + (f". {escaped(head)}" if head else "."))


def group_title(group, is_first):
    """The line above a group's clauses."""
    if group.comment:
        return group.comment if group.kind == "ensures" else f"Requires. {group.comment}"
    if group.kind == "requires":
        return "Requires:" if is_first else "Also requires:"
    return "Ensures:" if is_first else "Also ensures:"


def add_groups(page, groups):
    seen = set()
    for group in sorted(groups, key=lambda group: group.kind != "requires"):
        page.add(wrapped(escaped(group_title(group, group.kind not in seen))))
        seen.add(group.kind)
        page.add(list_of(item(clause.label, clause.lines) for clause in group.clauses))


def add_call(page, call, places, anchors):
    page.heading(3, call.name)
    if call.doc:
        page.add(call.doc)
    page.add(code_block(call.signature, "rust"))
    declared = f"{call.trait}::{call.name.split('::')[-1]}"
    if declared in anchors:
        page.add(f"It has the clauses of [`{declared}`](#{anchors[declared]}), too.")
    add_groups(page, call.groups)
    add_definitions(page, call.facts(), call.source, places)


def add_members(page, title, members):
    page.add(title)
    page.add(list_of(item(member.name, member.lines, " ".join(member.doc)) for member in members))


def impl_title(trait):
    return "What contracts see of it:" if trait == "Model" else f"As `{trait}`:"


def add_type(page, found, places, anchors):
    page.heading(3, found.name)
    if found.doc:
        page.add(found.doc)
    if found.declaration:
        page.add(code_block(found.declaration, "rust"))
    if found.members:
        add_members(page, "Its meanings and laws:", found.members)
    for trait, members in found.impls:
        add_members(page, impl_title(trait), members)
    add_definitions(page, found.facts(), found.source, places)
    for call in found.calls:
        add_call(page, call, places, anchors)


def contents(crates):
    return wrapped("Crates: " + ", ".join(f"[`{crate.name}`](#{crate.name})" for crate in crates) + ".")


def contracts_made(crates, places, anchors):
    page = Page(CONTRACTS_HEAD)
    page.add(contents(crates))
    for crate in crates:
        page.heading(2, crate.name)
        page.add(wrapped(escaped(crate.about)))
        last = None
        for each in crate.items:
            if each.source is not last:
                page.add(origin(each.source.path, each.source.head(), ".."))
            last = each.source
            if isinstance(each, Call):
                add_call(page, each, places, anchors)
            else:
                add_type(page, each, places, anchors)
    return page


def contracts_page(crates, places):
    """The page. It is made twice, since a call may come before the call of the trait that it links to."""
    crates = [crate for crate in crates if crate.items]
    anchors = contracts_made(crates, places, {}).anchors
    return contracts_made(crates, places, anchors).text()


def title_of(definition, crate):
    """A definition's heading: its name. An operator has no letters, and an anchor needs some."""
    return definition.name if re.search(r"\w", definition.name) else f"Operator {definition.name} of {crate.name}"


def add_index(page, entries):
    """All names in alphabetical order, a paragraph a letter, with the crate where a name has more than one."""
    names = [name for name, _, _ in entries]
    page.heading(2, "All names")
    letters = {}
    for name, crate, place in sorted(entries, key=lambda entry: (entry[0].lower(), entry[0], entry[1])):
        link = f"[`{name}`]({place})"
        letter = next((sign.upper() for sign in name if sign.isalpha()), "Operators")
        letters.setdefault(letter, []).append(f"{link} ({crate})" if names.count(name) > 1 else link)
    for letter in sorted(letters, key=lambda letter: (len(letter) > 1, letter)):
        page.add(wrapped(f"{letter}: " + ", ".join(letters[letter]) + "."))


def crate_row(crate):
    count = sum(len(file.definitions) for file in crate.specs)
    return f"| [`{crate.name}`]({BY_CRATE}/{crate.name}.md) | {count} | {escaped(crate.about)} |"


def index_page(crates, entries):
    page = Page(DEFINITIONS_HEAD)
    page.heading(2, "Crates")
    page.add(["| crate | definitions | what it is |", "|---|---|---|"] + [crate_row(crate) for crate in crates])
    add_index(page, entries)
    return page.text()


def crate_page(crate):
    """A crate's page, and the anchor of each definition by its module and its name."""
    head, *rest = CRATE_HEAD.format(crate=crate.name, about=escaped(crate.about)).split("\n\n")
    page, anchors = Page(head), {}
    page.add(*map(wrapped, rest))
    for file in crate.specs:
        page.add(origin(file.path, file.head, "../.."))
        for definition in file.definitions:
            anchors[file.path.stem, definition.name] = page.heading(2, title_of(definition, crate))
            if definition.comment:
                page.add(wrapped(escaped(" ".join(definition.comment))))
            page.add(code_block(definition.lines))
    return page.text(), anchors


def definitions_pages(crates):
    """The pages by their names, and the place of each definition by its crate, its module and its name. Crates that offer
    nothing, which are those of tests, have no page."""
    crates = [crate for crate in crates if crate.specs and crate.items]
    pages, places = {}, {}
    for crate in crates:
        name = f"{BY_CRATE}/{crate.name}.md"
        pages[name], anchors = crate_page(crate)
        for (module, definition), anchor in anchors.items():
            places[crate.name, module, definition] = f"{name}#{anchor}"
    entries = [(definition, crate, place) for (crate, _, definition), place in places.items()]
    return {DEFINITIONS: index_page(crates, entries), **pages}, places


# ---- What is asked for


def all_calls(crates):
    for crate in crates:
        for each in crate.items:
            if isinstance(each, Call):
                yield each
            else:
                yield from each.calls


def all_definitions(crates):
    for crate in crates:
        for file in crate.specs:
            yield from file.definitions


def missing(crates):
    """Public calls without a docstring and definitions without a comment. A trait's call has that of the trait."""
    calls = [call for call in all_calls(crates) if not call.doc and not call.trait]
    definitions = [definition for definition in all_definitions(crates) if not definition.comment]
    for call in calls:
        print(f"{shown(call.source.path, call.line)} {call.name}")
    for definition in definitions:
        print(f"{shown(definition.path, definition.line)} {definition.name}")
    return 1 if calls or definitions else 0


def first_difference(old, new):
    old, new = old.splitlines(), new.splitlines()
    for number, (before, after) in enumerate(zip(old, new), start=1):
        if before != after:
            return number
    return min(len(old), len(new)) + 1


def outdated(pages):
    """Pages of crates that are gone, or that have no definition any more."""
    return [path for path in sorted((DOCS / BY_CRATE).glob("*.md")) if f"{BY_CRATE}/{path.name}" not in pages]


def check(pages):
    status = 0
    for path in outdated(pages):
        print(f"{path.relative_to(ROOT)}:1: docs/generate.py writes no such page")
        status = 1
    for name, text in pages.items():
        path = DOCS / name
        old = path.read_text(encoding="utf-8") if path.exists() else ""
        if old != text:
            print(f"{path.relative_to(ROOT)}:{first_difference(old, text)}: not what docs/generate.py writes")
            status = 1
    return status


def main(words):
    if words not in ([], ["--check"], ["--missing"]):
        print(__doc__, file=sys.stderr)
        return 2
    try:
        crates = [read_crate(name) for name in crate_names()]
    except ParseError as error:
        print(error, file=sys.stderr)
        return 2
    if words == ["--missing"]:
        return missing(crates)
    definitions, places = definitions_pages(crates)
    pages = {CONTRACTS: contracts_page(crates, places), **definitions}
    if words == ["--check"]:
        return check(pages)
    (DOCS / BY_CRATE).mkdir(exist_ok=True)
    for path in outdated(pages):
        path.unlink()
    for name, text in pages.items():
        (DOCS / name).write_text(text, encoding="utf-8")
    return 0


if __name__ == "__main__":
    sys.exit(main(sys.argv[1:]))
