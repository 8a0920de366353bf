#!/usr/bin/env python3
# SPDX-License-Identifier: MIT
"""What has to be believed, counted: the definitions that the headline of the core rests on, and what no proof covers. Prints the
two tables that docs/PROVED.md has between marks, with these marks. Lines are counted without comments and blank lines."""

import re
import sys

sys.dont_write_bytecode = True

import walk

# What no proof covers, besides the toolchain: a line of the table, the files, and the mark of their comments.
GLUE = (
    (
        "Ada: the packages of the runtime, and what goes into GNAT's (bindings/ada)",
        ("bindings/ada/s-*.ad?", "bindings/ada/parts/*.ad?"),
        "--",
    ),
    ("the changes of GNAT's units (bindings/ada)", ("bindings/ada/changes/*.edit",), "#"),
    (
        "the scripts that put that into a copy of GNAT's runtime (bindings/ada)",
        ("bindings/ada/make.sh", "bindings/ada/change.awk"),
        "#",
    ),
    ("C: include/pobj.h, which declares the library to C", ("include/pobj.h",), "//"),
    ("C: pobj_threads.h, protected objects for threads over it (bindings/c)", ("bindings/c/pobj_threads.h",), "//"),
    ("C: heap.c, the functions of memory on aarch64 (bindings/c)", ("bindings/c/heap.c",), "//"),
)
# The calls of an object whose answers are of its one history.
ANSWERS = (
    *("call", "conditional", "timed", "procedure", "function_after", "try_count_after"),
    *("tick_after", "finalize_after", "cancel_seat_after", "cut_after"),
)
# The commands of a core, whose clauses say that its history is theirs, by their files.
COMMANDS = {
    "object_core.rt": ("issue", "procedure", "function", "cancel", "tick", "finalize", "collect", "end_of"),
    "recorded_core.rt": ("cancel_number", "cut"),
}
# The types whose views say how contracts see a core, with a record or without one; and the ghost items that say it.
VIEWED = ("Core", "Recorded", "Unrecorded")
VIEWS = ("Value", "view", "base", "events")
PROGRAMS = ("pobj_run", "pobj_check", "pobj_stress", "pobj_text", "pobj_explore", "po_c")


def rested_on(crate, file, method):
    """The definitions that the clauses of a public method cite, directly or through others."""
    lines = (walk.CRATES / crate / "src" / file).read_text().splitlines()
    start = next(at for at, line in enumerate(lines) if line.startswith((f"    pub fn {method}(", f"    pub fn {method}<")))
    end = next(at for at in range(start, len(lines)) if lines[at] == "    }")
    outer = walk.imports("\n".join(line for line in lines if line.startswith("ghost use ")))
    return walk.closure(walk.roots_in([], walk.contracts(walk.without_comments("\n".join(lines[start:end]), "//")), outer))


def item_of(crate, head):
    """The path of the crate's file that has an item with this head, and the lines of the item."""
    for path in sorted((walk.CRATES / crate / "src").glob("*.rt")):
        for lines in walk.blocks(path.read_text()):
            if walk.head_of(lines).startswith(head):
                return path, lines
    raise KeyError(head)


def cited_by(path, lines):
    """The definitions that these lines of a file of code cite, directly or through others."""
    outer = walk.imports("\n".join(line for line in path.read_text().splitlines() if line.strip().startswith("ghost use ")))
    return walk.closure(walk.roots_in([], lines, outer))


def premise():
    """The definitions of the headline's premise: the trait of units, with its lines, and what it cites."""
    path, lines = item_of("po_unit", "pub trait Unit")
    return len(lines), cited_by(path, lines)


def views_in(lines):
    """The lines of an item that say how contracts see a value."""
    found, inside = [], False
    for line in lines:
        begun = re.match(r"    ghost (\w+) =", line)
        inside = begun[1] in VIEWS if begun else inside
        if inside:
            found.append(line)
        inside = inside and not line.endswith("};")
    return found


def all_views():
    """For each type of crates/*/src that has a view, its file and the lines of the view."""
    found = {}
    for path in sorted(walk.CRATES.glob("po_*/src/**/*.rt")):
        for lines in walk.blocks(path.read_text()):
            head = walk.head_of(lines)
            if head.startswith("impl") and views_in(lines):
                found[re.match(r"\w+", walk.type_of(head))[0]] = (path, views_in(lines))
    return found


def fields_of(path, name):
    """The words of the fields of a type in this file."""
    return re.findall(r"\w+", " ".join(walk.types_in(path).get(name, [])))


def views():
    """The views of a core and of all that it contains: how many they are, their lines, and the definitions that they cite."""
    there, found, left = all_views(), {}, list(VIEWED)
    while left:
        name = left.pop()
        if name in there and name not in found:
            found[name] = there[name]
            left += fields_of(there[name][0], name)
    cites = set().union(*(cited_by(path, lines) for path, lines in found.values()))
    return len(found), sum(len(lines) for _, lines in found.values()), cites


def table(head, rows):
    """The lines of a table."""
    return [head, "|---" * (head.count("|") - 1) + "|"] + ["| " + " | ".join(row) + " |" for row in rows]


def counts(pairs):
    """How many definitions these are, and how many lines they have."""
    return str(len(pairs)), str(sum(len(walk.definitions(path)[name]) for path, name in pairs))


def more(what, pairs, count=0, lines=0):
    """A row of what else has to be believed: these definitions, and `count` things of another kind with `lines` lines."""
    definitions, length = counts(pairs)
    return what, str(int(definitions) + count), str(int(length) + lines)


def of_headline():
    """Of each file how many of its definitions the headline rests on, and how many lines they have; and how many more other
    claims rest on."""
    headline = rested_on("po_core", "object_core.rt", "headline")
    commands = set().union(*(rested_on("po_core", file, method) for file, methods in COMMANDS.items() for method in methods))
    core = headline | commands
    closing = rested_on("po_object", "closing.rt", "every_answer") - core
    answers = set().union(*(rested_on("po_object", "object.rt", method) for method in ANSWERS)) - core - closing
    viewed, view_lines, view_cites = views()
    trait_lines, trait_cites = premise()
    files = sorted({path for path, _ in headline})
    rows = [(f"`{file.relative_to(walk.CRATES)}`", *counts([it for it in headline if it[0] == file])) for file in files]
    return [
        *rows,
        ("all, for the headline", *counts(headline)),
        more("more, for the clauses of the commands", commands - headline),
        ("all, for both", *counts(core)),
        more("more, for the premise", trait_cites - core, 1, trait_lines),
        more("more, for the views of a core", view_cites - trait_cites - core, viewed, view_lines),
        more("more, for `Closed::every_answer`", closing),
        more("more, for each answer over threads", answers),
    ]


def lines_of(path, mark):
    """How many lines the file has without comments and blank lines."""
    text = re.sub(r"/\*.*?\*/", "", path.read_text(), flags=re.S) if mark == "//" else path.read_text()
    return len([line for line in walk.without_comments(text, mark) if line.strip()])


def glue():
    """The rows of what no proof covers."""
    for what, patterns, mark in GLUE:
        paths = [path for pattern in patterns for path in sorted(walk.TOP.glob(pattern))]
        yield what, f"{sum(lines_of(path, mark) for path in paths):,} lines in {len(paths)} file{'s'[:len(paths) > 1]}"


def needs():
    """For each crate of crates.txt, what it depends on."""
    lines = (line.partition(":") for line in (walk.TOP / "crates.txt").read_text().splitlines() if line and line[0] != "#")
    return {head.split()[0]: deps.split() for head, _, deps in lines}


def libraries():
    """The rows of the kit's libraries: those that the programs and the library for C depend on, and the others."""
    lines = needs()
    below, left = set(), list(PROGRAMS)
    while left:
        crate = left.pop()
        if crate not in below:
            below.add(crate)
            left += lines.get(crate, [])
    of_all = {it for deps in lines.values() for it in deps} - set(lines)
    yield "libraries of the kit under the programs and the library for C", ", ".join(f"`{it}`" for it in sorted(of_all & below))
    yield "libraries of the kit under examples and tests alone", ", ".join(f"`{it}`" for it in sorted(of_all - below)) or "none"


def found_in(word, mark, *patterns):
    """The lines with the word in these files of crates/, without comments, by file."""
    found = {}
    for path in sorted(path for pattern in patterns for path in walk.CRATES.glob(pattern)):
        count = len([line for line in walk.without_comments(path.read_text(), mark) if re.search(word, line)])
        if count:
            found[path] = count
    return found


def counted(found):
    """How many lines were found, and where, if it isn't in many files."""
    where = ", ".join(f"`{path.relative_to(walk.CRATES)}`" for path in found)
    return f"{sum(found.values())}" + (f": {where}" if found else "")


def unproved():
    """The rows of what is in crates/ and has to be believed, or would have to be."""
    code, proofs = ("//", "*/src/*.rt"), ("--", "*/specs/*.antt", "*/proofs/**/*.antt")
    yield "functions that C calls, with the attribute `unsafe(no_mangle)`", counted(found_in(r"#\[unsafe\(", *code))
    yield "lines with `unsafe`, except such attributes", counted(found_in(r"(?<!\[)\bunsafe\b", *code))
    yield "blocks that declare functions of C, whose contracts would be assumed", counted(found_in(r"\bextern \"C\" \{", *code))
    yield "axioms, in definitions and proofs", counted(found_in(r"\baxiom\b", *proofs))
    yield "holes, the sign `?` in the place of a proof", counted(found_in(r"\?", *proofs))


def marked(mark, lines):
    """The lines between their marks."""
    return [f"<!-- {mark} -->", *lines, "<!-- until here -->"]


if __name__ == "__main__":
    print("\n".join(marked("what the headline rests on", table("| file in crates/ | definitions | lines |", of_headline()))))
    print("\n".join(marked("what is beside it", table("| what | how much |", [*libraries(), *glue(), *unproved()]))))
