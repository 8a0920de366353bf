#!/usr/bin/env python3
# SPDX-License-Identifier: MIT
"""Checks that docs/DEFINITIONS.md has each definition that a public clause of the core, the objects, the driven object or the library
for C cites, directly or through others, and no name that isn't there. Prints what is missing, by file, and at the end 'N passed, M
failed'. With --list it prints the definitions by file, with a star before each that the page lacks."""

import re
import sys

sys.dont_write_bytecode = True

import walk

PAGE = walk.TOP / "docs" / "DEFINITIONS.md"
PRODUCT = ("po_core", "po_object", "po_driven", "po_c")


def files_of(heading):
    """The files that a heading names between backticks: as FOLDER/FILE; as FILE after its FOLDER; or all files of a FOLDER that no
    FILE follows. Folders are CRATE/specs and CRATE/src."""
    words, found, folder = re.findall(r"`([^`]+)`", heading), [], walk.CRATES
    for word, after in zip(words, words[1:] + ["/"]):
        path = walk.CRATES / word if "/" in word else folder / word
        if path.suffix:
            found.append(path)
        else:
            folder = path
            found += sorted(path.glob("*.*")) if "/" in after else []
    return found


def sections(text):
    """The sections of the page: the heading of each, the files that it names, and the names in the first cells of its rows."""
    found = []
    for part in re.split(r"^## ", text, flags=re.M)[1:]:
        heading, _, rest = part.partition("\n")
        rows = re.findall(r"^\| (`.*?) \|", rest, re.M)
        found.append((heading, files_of(heading), [name for row in rows for name in re.findall(r"`(\w+)`", row)]))
    return found


def listed(parts):
    """The definitions that the page has."""
    found = ((path, name) for _, paths, names in parts for path in paths if path.exists() for name in names)
    return {(path, name) for path, name in found if name in walk.definitions(path)}


def stale(parts):
    """What the page names that isn't there: files, and names that none of their section's files has."""
    for heading, paths, names in parts:
        title = heading.partition(" (")[0]
        yield from (f"'{title}' names {path.relative_to(walk.CRATES)}, which isn't there" for path in paths if not path.exists())
        there = {name for path in paths if path.exists() for name in walk.definitions(path)}
        yield from (f"'{title}' has a row for {name}, which isn't in its files" for name in names if name not in there)


def by_file(definitions):
    """The names of the definitions by their files, in the order of the file."""
    found = {}
    for path, _ in sorted(definitions):
        found[path] = [name for name in walk.definitions(path) if (path, name) in definitions]
    return found


def show(reached, there):
    """Prints the definitions by file, with a star before each that the page lacks."""
    for path, names in by_file(reached).items():
        print(f"{path.relative_to(walk.CRATES)}: " + " ".join(name if (path, name) in there else f"*{name}" for name in names))
    print(f"{len(reached)} definitions, {len(reached - there)} of them not on the page")


def main(words):
    """Compares the page with the clauses, and returns the exit status."""
    roots = {crate: walk.roots_of(crate) for crate in PRODUCT}
    reached = walk.closure(it for found in roots.values() for it in found)
    parts = sections(PAGE.read_text())
    there = listed(parts)
    if words == ["--list"]:
        show(reached, there)
        return 0
    faults = [f"no public clause of {crate} was found" for crate, found in roots.items() if not found] + list(stale(parts))
    for path, names in by_file(reached - there).items():
        faults.append(f"docs/DEFINITIONS.md lacks, of crates/{path.relative_to(walk.CRATES)}: {' '.join(names)}")
    for fault in faults:
        print(f"FAILED: {fault}")
    print(f"{len(reached & there)} passed, {len(faults)} failed")
    return 1 if faults else 0


if __name__ == "__main__":
    sys.exit(main(sys.argv[1:]))
