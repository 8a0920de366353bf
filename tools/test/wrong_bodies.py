#!/usr/bin/env python3
# SPDX-License-Identifier: MIT
"""Tries the wrong bodies of crates (crates/NAME/must-fail/*.edit), of all crates if none is named. The prover has to refuse each
because a clause is false of it. An edit is BAD, and fails too, if the prover refuses it only because a proof names what it took away.
Prints a line for each edit, and at the end 'N passed, M failed'.

The edits are tried in a copy of the sources, or with --in FOLDER in that copy, over what the toolchain kept of proofs of these
sources: a quarter of a minute each. Edits of one crate share a check if each is in functions of its own, and the prover has to
refuse each of these functions. Edits that this doesn't settle are tried alone. `rt ci` tries each alone, and each crate from
nothing."""

import os
import pathlib
import re
import shutil
import subprocess
import sys
import tempfile

TOP = pathlib.Path(__file__).resolve().parent.parent.parent

# Lines of a check: one says what is wrong at a place in a file; one, what wasn't checked because of that; one, that a proof
# file names what isn't there; the last two, what the error is, and that a text can't be read. `rt must-fail` tells them apart
# this way, except for the second.
PLACE = re.compile(r"(?:note: )?\S+:\d+:\d+:")
UNCHECKED = re.compile(r"which was rejected, (was|were) not checked")
NAMING = re.compile(r"(?:note: )?(?:\./)?(proofs/[^:]+).*(?:has no field|is not in scope|has no `|was not admitted)")
ERROR = re.compile(r"(?:\./)?(\S+?):\d+:\d+: error: (?:(`[^`]*`): )?(.*)")
UNREADABLE = re.compile(r"is not in scope|has no field|is no name|operand is missing|expected the end|cannot continue")


def changes_of(edit):
    """The changes of the edit, each a file's path in the crate, the old text and the new one."""
    changes, path, old = [], None, None
    for line in edit.read_text().split("\n"):
        if line.startswith("file: "):
            path = line[6:].strip()
        elif line.startswith("old: "):
            old = line[5:]
        elif line.startswith("new:"):
            changes.append((path, old, line[4:].removeprefix(" ")))
    return changes


def edited(edits, crate):
    """The texts of the files that the edits change, by their paths in the crate. A ValueError says why they can't be applied."""
    texts = {}
    for path, old, new in (change for edit in edits for change in changes_of(edit)):
        text = texts.get(path) or (crate / path).read_text()
        if text.count(old) != 1:
            raise ValueError(f"its old text is in {path} {text.count(old)} times, and not once")
        texts[path] = text.replace(old, new)
    return texts


def module(path):
    """The module of this file, as `rt check` names it: for a file in a folder that of the folder, since a method is named by the
    module of its type. The crate's root file has none."""
    parts = pathlib.PurePath(path).with_suffix("").parts
    return [parts[1]] if parts[0] == "src" and parts[1:] not in (("lib",), ("main",)) else []


def modules(paths):
    """The modules of these files."""
    return {name for path in paths for name in module(path)}


def without_parameters(text):
    """The text without what is in angle brackets."""
    while (shorter := re.sub(r"<[^<>]*>", "", text)) != text:
        text = shorter
    return text


def split_parameters(text):
    """The parameters in angle brackets that the text begins with, if it does, and what follows."""
    depth = 0
    for end, mark in enumerate(text, 1):
        depth += (mark == "<") - (mark == ">")
        if depth == 0:
            break
    return (text[1 : end - 1], text[end:]) if text.startswith("<") else ("", text)


def name_of_type(head):
    """How a check names the type of an `impl` with this head: followed by its trait, or by the arguments for its parameters."""
    without_lifetimes = re.sub(r"'\w+(, *)?", "", head.replace("->", ""))
    parameters, rest = split_parameters(re.sub(r"^(unsafe )?impl\s*", "", without_lifetimes))
    trait, _, of = rest.rpartition(" for ")
    names = re.findall(r"\w+", of)
    if trait:
        return names[0] + without_parameters(trait).strip().split("::")[-1]
    declared = {it.split(":")[0].strip() for it in without_parameters(parameters).split(",")}
    return names[0] if of.count("<") < 2 and declared.issuperset(names[1:]) else "+".join(names)


def owner(lines):
    """The name of the type whose methods follow these lines, or the empty name."""
    tops = [number for number, line in enumerate(lines) if re.match(r"(unsafe )?impl\b", line)]
    if not tops or "}" in lines[tops[-1] :]:
        return ""
    return name_of_type(" ".join(it.strip() for it in lines[tops[-1] :]).split("{")[0].split(" where ")[0])


def function(crate, change):
    """The function that the change is in, by the end of its name as a check prints it, or None."""
    path, old, _ = change
    lines = (crate / path).read_text().split(old)[0].split("\n")
    starts = [(number, found[1]) for number, line in enumerate(lines) if (found := re.match(r"(?: {4})?(?:[\w()\"]+ )*fn (\w+)", line))]
    if not starts or re.search(r"\bfn \w", old):
        return None
    number, name = starts[-1]
    file = "".join(module(path)) and pathlib.PurePath(path).stem
    return "::".join(it for it in (owner(lines[: number + 1]) or file, name) if it)


def functions(crate, edit):
    """The functions that the edit is in, or none if one of its changes is in none."""
    found = {function(crate, change) for change in changes_of(edit)}
    return set() if None in found else found


def check(crate, texts, words):
    """The status of a check of the crate in this folder with these texts, and what it said."""
    kept = {path: (crate / path).read_text() for path in texts}
    try:
        for path, text in texts.items():
            (crate / path).write_text(text)
        ran = subprocess.run(["rt", "check", *words], cwd=crate, stdin=subprocess.DEVNULL, capture_output=True, text=True, errors="replace")
    finally:
        for path, text in kept.items():
            (crate / path).write_text(text)
    return ran.returncode, ran.stdout + ran.stderr


def only(names):
    """The words by which a check is of these alone."""
    return [word for name in sorted(names) for word in ("--only", name)]


def not_proved(said):
    """The functions of which a check says that they aren't proved, without those that only call such a function."""
    return re.findall(r"^fn (\S+): (?:not proved|no proof: (?!it calls))", said, re.M)


def complaints(said):
    """The lines of a check that say what is wrong: its errors and notes, or if there are none all lines about a place."""
    told = [line for line in said.splitlines() if PLACE.match(line) and not UNCHECKED.search(line)]
    return [line for line in told if ": error" in line or line.startswith("note: ")] or told


def naming(said):
    """The files of proofs that name what isn't there, as a check says."""
    return [found[1] for line in complaints(said) if (found := NAMING.match(line))]


def unread(line, paths):
    """Whether the line says that the prover can't read a text of src/, specs/ or one of these files. If an edit only makes a
    statement false, the prover reads all."""
    found = ERROR.match(line)
    if not found or not (found[1] in paths or found[1].startswith(("src/", "specs/"))):
        return False
    return not found[2] or UNREADABLE.search(re.sub(r"`[^`]*`", "", found[3])) is not None


def why_bad(said, paths):
    """Why the refusal of an edit of these files says nothing about a contract, or None if it does."""
    told = complaints(said)
    unreadable = [line for line in told if unread(line, paths)]
    if unreadable:
        return f"the prover can't read the edited text: {unreadable[0]}"
    if told and all(NAMING.match(line) for line in told):
        return f"refused only because a proof names what it took away: {told[0]}"
    return None


def says_refused(status, said):
    """Whether the check came to the proofs, and one of them failed, or met a limit of the prover, as `rt must-fail` has it."""
    if status == 3:
        return re.search(r"antt ran out of |outgrew the memory limit|stopped at the step limit", said) is not None
    # (before its libraries are built, a first pass over the crate prints this line too, about no function; the check's comes last)
    told = re.findall(r"^only=(\d+) proved=(\d+)", said, re.M)
    if told:
        return status == 1 and told[-1][0] != told[-1][1]
    return status == 1 and "logic=not-proved" in said and not re.search(r"\berror\[[\w-]+\]", said)


def side_by_side(edits, crate):
    """Some of the edits, each in functions of its own, and these functions. The proof of one function doesn't depend on the body of
    another, since it uses only its contract."""
    chosen, taken = [], set()
    for edit in edits:
        found = functions(crate, edit)
        if found and not found & taken:
            chosen.append(edit)
            taken |= found
    return chosen, taken


def settled(said, names):
    """Those of these functions that the prover refuses in a check although no proof file of theirs names what isn't there. None
    if such a file belongs to none of the functions: then nobody can tell which of them are refused only for that."""
    by_name = {name: [path for path in naming(said) if f"/{name.replace('::', '/')}/" in path] for name in names}
    if set(naming(said)) - {path for paths in by_name.values() for path in paths}:
        return set()
    wrong = not_proved(said)
    return {name for name in names if not by_name[name] and any(f"::{it}".endswith(f"::{name}") for it in wrong)}


def check_functions(crate, texts, names):
    """The status of a check of these functions with these texts, and what it said. It is one of whole modules if there are none."""
    status, said = check(crate, texts, only(names or modules(texts)))
    if status == 2 and names:
        # (the check has another name for one of them)
        return check(crate, texts, only(modules(texts)))
    return status, said


def check_together(edits, names, crate):
    """Those of the edits that one check of all of them refuses for sure. The names are those of the functions that each edit is
    in."""
    texts = edited(edits, crate)
    status, said = check_functions(crate, texts, names)
    if status != 1 or any(unread(line, texts) for line in complaints(said)):
        return []
    refused = settled(said, names)
    return [edit for edit in edits if functions(crate, edit) & refused]


def refused_together(edits, crate):
    """Those of the edits that the prover refuses for sure, tried side by side, as many at once as possible."""
    refused, new, left = [], edits, edits
    while new:
        chosen, names = side_by_side(left, crate)
        if len(chosen) < 2:
            break
        new = check_together(chosen, names, crate)
        refused += new
        left = [edit for edit in left if edit not in chosen]
    return refused


def report(edit, crate, fault=None):
    """Prints what came of the edit, which was refused if there is no fault, and returns whether it was."""
    name = f"{crate.name}/{edit.stem}"
    print(f"{fault.partition(': ')[0]}: {name}: {fault.partition(': ')[2]}" if fault else f"{name}: refused", flush=True)
    return fault is None


def fault_of(edit, crate):
    """What is wrong with an edit, tried alone in the copy of its crate, or None if the prover refuses it as it should."""
    try:
        texts = edited([edit], crate)
        status, said = check_functions(crate, texts, functions(crate, edit))
    except (OSError, ValueError) as fault:
        return f"FAILED: not tried: {fault}"
    if not says_refused(status, said):
        return f"FAILED: not refused, or not tried: status {status}: {said[-400:]}"
    bad = why_bad(said, texts)
    return bad and f"BAD: {bad[:400]}"


def try_crate(edits, crate):
    """Tries the wrong bodies of a crate in its copy: side by side, and alone each that this doesn't settle. Returns for each whether
    it was refused."""
    try:
        refused = refused_together(edits, crate)
    except (OSError, ValueError):
        refused = []
    return [report(edit, crate, None if edit in refused else fault_of(edit, crate)) for edit in edits]


def copy_sources(to):
    """Copies what the toolchain reads into a folder. It finds by itself what it kept of proofs."""
    for name in ("crates.txt", "HANDLES"):
        shutil.copy(TOP / name, to / name)
    shutil.copytree(TOP / "crates", to / "crates", ignore=shutil.ignore_patterns("out", "must-fail"))


def try_crates(names, room):
    """Tries the wrong bodies of these crates in the copy, and returns for each whether it was refused."""
    found = {name: sorted((TOP / "crates" / name / "must-fail").glob("*.edit")) for name in names}
    return [refused for name, edits in found.items() for refused in try_crate(edits, room / "crates" / name)]


def main(names):
    """Tries the wrong bodies of these crates, and returns the exit status."""
    there = None
    if names[:1] == ["--in"]:
        there, names = pathlib.Path(names[1]), names[2:]
    crates = names or sorted(it.name for it in (TOP / "crates").iterdir())
    lacking = [it for it in crates if not (TOP / "crates" / it / "src").is_dir()]
    if lacking:
        print(f"no such crate: {lacking[0]}", file=sys.stderr)
        return 2
    with tempfile.TemporaryDirectory() as room:
        if there is None:
            there = pathlib.Path(room)
            copy_sources(there)
        results = try_crates(crates, there)
    print(f"{sum(results)} passed, {len(results) - sum(results)} failed")
    return 0 if all(results) else 1


if __name__ == "__main__":
    os.chdir(TOP)
    sys.exit(main(sys.argv[1:]))
