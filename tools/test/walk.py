# SPDX-License-Identifier: MIT
"""Which definitions a contract rests on: those of crates/*/specs that its clauses cite, those that these cite in turn, and the
types of crates/*/src that they speak of. A definition is a file and a name. Read by definitions.py and believed.py."""

import functools
import pathlib
import re

TOP = pathlib.Path(__file__).resolve().parent.parent.parent
CRATES = TOP / "crates"


def look_in(top):
    """From now on looks in the repository in this folder, as it is now."""
    global TOP, CRATES
    TOP, CRATES = top, top / "crates"
    for cached in (definitions, all_types, scope, cited):
        cached.cache_clear()


# The beginning of a definition: its indent, a record or data, its name.
HEADER = re.compile(r"( *)(?:(?:abbrev|unfoldable) )?(?:pub )?(?:rec )?(?:(record|data) )?([A-Za-z]\w*) *(:|\(|\{)")
KEYWORD = re.compile(r" *(abbrev|unfoldable|pub|record|data) ")
USE = re.compile(r"\buse Rattle\.([\w.]+)\.\{([^}]*)\}")
NAME = re.compile(r"(?<![\w.])[A-Za-z]\w*")
# A label of a record, or of a field; the name of a variant.
LABEL = re.compile(r"(?<=[{;]) *\w+ = |^ *\w+ = |^ *(?:pub )?\w+ : |^ +\w+(?=[,({]|: )")
# Names that a line binds: after λ, in front of a colon in parentheses, after let.
BINDERS = re.compile(r"λ ([\w ]+)\.|[({]([\w ]+) :|\blet (\w+) =")


def uses(text):
    """What the `use` lines of the text import: for each name, the words of its path, and its name there."""
    found = {}
    for path, names in USE.findall(text):
        for name in filter(None, (it.strip() for it in names.split(","))):
            there, _, here = name.partition(" as ")
            found[here or there] = (path.split("."), there)
    return found


def defined(words, name):
    """The definition that has this path. None if it isn't of crates/*, but of the toolchain's libraries."""
    if len(words) == 3 and words[1] == "specs":
        path = CRATES / words[0] / "specs" / f"{words[2]}.antt"
        return (path, name) if path.exists() else None
    if len(words) > 4 and words[1:3] == ["specs", "declared"]:
        path = CRATES / words[0] / "src" / f"{words[3]}.rt"
        return (path, words[4]) if path.exists() and words[4] in definitions(path) else None
    return None


def imports(text):
    """For each name that the text imports, also a variant's, the definition that it is or belongs to."""
    return {here: defined(*there) for here, there in uses(text).items() if defined(*there)}


def without_comments(text, mark):
    """The lines of the text without comments, which begin with the mark, and without blank lines."""
    lines = (re.sub(rf"(^|\s){mark}.*", "", line).rstrip() for line in text.splitlines())
    return [line for line in lines if line]


def begins(line, record):
    """What the line begins to define: its name, and its indent if it is a record or data. None if it begins nothing: a field of the
    record above, whose indent is `record`, is no definition."""
    header = HEADER.match(line)
    if not header or not (KEYWORD.match(line) or header[4] == ":"):
        return None
    indent = len(header[1])
    if record is not None and indent > record or indent > 2:
        return None
    return header[3], indent if header[2] else None


def types_in(path):
    """The types that a file of code declares, by their names, each with its lines, without attributes."""
    found = {}
    for lines in blocks(path.read_text()):
        lines = [line for line in lines if not line.lstrip().startswith("#")]
        declared = re.match(r"pub(?:\(crate\))? (?:struct|enum) (\w+)", lines[0]) if lines else None
        if declared:
            found[declared[1]] = lines
    return found


@functools.cache
def definitions(path):
    """The definitions of a file by their names, each with its lines. Those of a file of code are its types."""
    if path.suffix == ".rt":
        return types_in(path)
    found, name, record = {}, None, None
    for line in without_comments(path.read_text(), "--"):
        if line.lstrip().startswith(("use ", "module ", "pub mod ")):
            name = record = None
            continue
        name, record = begins(line, record) or (name, record)
        if name:
            found.setdefault(name, []).append(line)
    return found


@functools.cache
def all_types():
    """For each type of crates/*/src that contracts see as it is, not by a view of its own, the files that declare a type of its
    name."""
    found = {}
    for path in sorted(CRATES.glob("*/src/*.rt")):
        viewed = set(re.findall(r"\bModel\s+for (\w+)", path.read_text()))
        for name in types_in(path).keys() - viewed:
            found.setdefault(name, []).append(path)
    return found


def types_near(path):
    """What the names of types mean in a file of code: those of its own crate, and those that it imports from another."""
    imported = set(re.findall(r"\w+", " ".join(re.findall(r"^use po_\w+::([^;]*);", path.read_text(), re.M))))
    found = {}
    for name, paths in all_types().items():
        near = [it for it in paths if it.parent == path.parent] or (paths if name in imported else [])
        if len(near) == 1:
            found[name] = (near[0], name)
    return found


@functools.cache
def scope(path):
    """What a name means in a file: of definitions, those that it imports, and its own; of code, the types."""
    if path.suffix == ".rt":
        return types_near(path)
    return {**imports(path.read_text()), **{name: (path, name) for name in definitions(path)}}


def binders(line):
    """The names that the line binds."""
    return {name for groups in BINDERS.findall(line) for names in groups for name in names.split()}


def parameters(line, name):
    """The names that an equation of this definition takes. None if the line doesn't begin one."""
    head, equals, _ = line.partition(" =")
    words = NAME.findall(head)
    return set(words[1:]) if equals and words[:1] == [name] else None


def named(line, here, taken):
    """The definitions that the line names."""
    names = set(NAME.findall(LABEL.sub(" ", line))) - taken - binders(line)
    return {here[name] for name in names if name in here}


@functools.cache
def cited(path, name):
    """The definitions that a definition cites."""
    lines = definitions(path)[name]
    head, taken, found = binders(lines[0]), set(), set()
    for line in lines:
        begun = parameters(line, name)
        taken = taken if begun is None else begun
        found |= named(line, scope(path), taken | head)
    return found - {(path, name)}


def closure(roots):
    """The definitions, and all that they cite in turn."""
    found, left = set(), list(roots)
    while left:
        it = left.pop()
        if it not in found:
            found.add(it)
            left.extend(cited(*it))
    return found


def blocks(text):
    """The items of a file of code, each with its lines, by the layout of `rt fmt`."""
    found, lines = [], []
    for line in without_comments(text, "//"):
        lines.append(line)
        if line[0] not in " #" and line[-1] in ";}":
            found.append(lines)
            lines = []
    return found


def contracts(lines):
    """The lines of the contracts of the public functions among these lines."""
    found, margin, begun = [], None, False
    for line in lines:
        indent = line[: len(line) - len(line.lstrip())]
        if re.match(r" *pub (unsafe |const |extern \"C\" )*fn ", line):
            margin, begun = indent, False
        begun = begun or re.match(r" *(requires|ensures)\b", line) is not None
        if margin is not None and indent == margin and line.endswith(("{", "}", ";")):
            margin = None
        if margin is not None and begun:
            found.append(line)
    return found


def ghosts(lines):
    """The lines of the ghost items among these: what a type means, what its fields keep. Proofs don't count, nor do `use` lines."""
    found, inside = [], False
    for line in lines:
        word = re.match(r" +(?:pub )?ghost (\w+)", line)
        if word:
            inside, margin = word[1] not in ("use", "lawful", "equality"), len(line) - len(line.lstrip())
        elif inside and len(line) - len(line.lstrip()) <= margin and not line.lstrip().startswith("}"):
            inside = False
        if inside:
            found.append(line)
    return found


def type_of(line):
    """The type whose `impl` the line begins."""
    head = re.sub(r"<[^<>]*>", "", re.sub(r"<[^<>]*>", "", re.sub(r"<[^<>]*>", "", line)))
    return re.split(r" for |impl ", head)[-1].split(" where")[0].strip(" {")


def head_of(lines):
    """The head of an item, without its attributes: one line, or as many as there are up to its brace."""
    head = ""
    for line in (it for it in lines if not it.startswith("#")):
        head += " " * bool(head) + line.strip()
        if head.endswith(("{", "}", ";")):
            break
    return head


def public_types(crate):
    """The public types of a crate."""
    text = "\n".join(path.read_text() for path in (CRATES / crate / "src").glob("*.rt"))
    return set(re.findall(r"^pub (?:struct|enum|trait) (\w+)", text, re.M))


def clauses(lines, types):
    """The lines of an item that a reader of its crate may rely on: contracts of public functions, what public types mean."""
    head = head_of(lines)
    if head.startswith("pub trait "):
        return lines[1:]
    if head.startswith("impl"):
        return contracts(lines) + (ghosts(lines) if type_of(head) in types else [])
    return contracts(lines) + (ghosts(lines) if head.startswith("pub ") else [])


def roots_in(lines, said, outer):
    """The definitions that these lines of an item name."""
    here = {**outer, **imports("\n".join(lines))}
    return {it for line in said for it in named(line, here, set())}


def roots_of(crate):
    """The definitions that the public clauses of a crate name."""
    types, found = public_types(crate), set()
    for path in sorted((CRATES / crate / "src").glob("*.rt")):
        items = blocks(path.read_text())
        outer = imports("\n".join(line for lines in items for line in lines if line.startswith("ghost use ")))
        for lines in items:
            found |= roots_in(lines, clauses(lines, types), outer)
    return found
