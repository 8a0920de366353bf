# SPDX-License-Identifier: MIT
"""Carries out scripts on protected units of Ada texts by GNAT. For Commands of comparison/ada a script is translated: entries
are named by their places, the value is the number of the line, and after it come the actual parameters. Answers are translated
back."""

import dataclasses
import hashlib
import pathlib
import re

import programs
import text_driver
import text_program

ADA = programs.HERE / "ada"
ORDERS = ("textual", "oldest", "rotating")
PREDEFINED = ("True", "False", "Constraint_Error", "Program_Error", "Assertion_Error", "Storage_Error", "Tasking_Error")
NUMBER = re.compile("-?[0-9]+")
ENTRY = re.compile(r"Entry_([0-9]+)(?:\(([0-9]+)\))? ([0-9]+)")


class Fault(Exception):
    """A line of the script that can't be carried out on this unit."""


class NotExpressible(Exception):
    """What the script asks for and Ada can't express, or GNAT refuses."""


@dataclasses.dataclass
class Text:
    """A text that GNAT compiled: its unit, the program, and the text's number in it."""

    file: pathlib.Path
    unit: text_program.Unit
    program: pathlib.Path
    place: int = 1


@dataclasses.dataclass
class Shape:
    """What the program says of the unit with the discriminants of a script: for each mark the first and last number or the
    literals, for each entry the images of its members; and the exception if the object can't be made."""

    subtypes: dict
    members: list
    unmade: str


def spelled(unit, word):
    """Returns a name in capitals as the text spells it, and any other word as it is."""
    return {name.upper(): name for name in PREDEFINED}.get(word) or unit.spellings.get(word, word)


def wanted(script):
    """Returns the name on the script's line `unit`, or nothing."""
    words = [words_of(command) for command in programs.commands(script)[:1]]
    return words[0][1] if words and words[0][0] == "unit" and len(words[0]) > 1 else ""


def text_in(file):
    """Returns the Ada text of the file. If it is NAME.ads or NAME.adb, and there are both, the text is that of both, as pobj's is."""
    pair = [file.with_suffix(".ads"), file.with_suffix(".adb")]
    files = pair if file in pair and all(part.exists() for part in pair) else [file]
    return "\n".join(map(programs.text_of, files))


def unit_of(file, name):
    """Returns the protected unit of the text in the file. The name is the unit's, if there are several."""
    try:
        return text_program.read(text_in(file), name)
    except text_program.Refused as why:
        raise programs.Failed(f"{file}: {why}") from why


def digest_of(sources):
    """Returns what tells a program of these sources, with those of comparison/ada, from others."""
    digest = hashlib.sha256("".join(sources.values()).encode())
    for source in sorted([*ADA.glob("*.ad?"), *(ADA / "text").glob("*.ad?")]):
        digest.update(source.read_bytes())
    return digest.hexdigest()[:16]


def make(folder, sources, program, names):
    """Has GNAT compile the sources in the folder. The names of the texts are for messages."""
    for old in folder.glob("own_text*"):
        old.unlink()
    for name, source in sources.items():
        (folder / name).write_text(source)
    flags = ["-gnata", "-gnatws", "-O1", f"-I{ADA / 'text'}", f"-I{ADA}"]
    programs.make(folder, [*flags, "carry_out_text.adb", "-o", program], names)


def build_all(files, names):
    """Returns the texts of the files, compiled as one program with those of comparison/ada. What was compiled before is kept. The
    names are those of the protected units, for files with several."""
    units = [unit_of(file, name) for file, name in zip(files, names)]
    sources = text_driver.sources(units, [file.name for file in files])
    folder = programs.OUT / "texts"
    folder.mkdir(parents=True, exist_ok=True)
    program = folder / f"{files[0].stem}-{digest_of(sources)}"
    if not program.exists():
        make(folder, sources, program, ", ".join(map(str, files)))
    return [Text(file, unit, program, place) for place, (file, unit) in enumerate(zip(files, units), 1)]


def build(file, name=""):
    """Returns the text of the file, compiled alone."""
    return build_all([file], [name])[0]


def words_of(command):
    """Returns the words of a line."""
    return [word for word in command.split(" ") if word]


def heading(commands):
    """Returns the discriminants of the script's line `unit`, what follows them, and the other commands. The line may be missing."""
    if not commands or words_of(commands[0])[0] != "unit":
        return [], [], commands
    words = words_of(commands[0])[2:]
    if words_of(commands[0])[1:2] == ["file"]:
        words = words[1:]
    rest = next((at for at, word in enumerate(words) if word in (*ORDERS, "max")), len(words))
    return words[:rest], words[rest:], commands[1:]


def run(text, word, script):
    """Runs the program of the text with that word on the translated script."""
    ended = programs.run([str(text.program), word], script, environment=programs.over(programs.runtime))
    if ended.returncode not in (0, programs.TOO_LATE):
        raise programs.Failed(f"the program of {text.file} ended with status {ended.returncode} on:\n{script}\n{ended.stderr}")
    return ended


def shape(text, discriminants):
    """Returns what the program says of the unit with these discriminants."""
    ended = run(text, "describe", f"unit {text.place} x {' '.join(discriminants)}\n")
    lines = [line.split() for line in ended.stdout.splitlines()]
    described = [line for line in lines if line[0] in ("range", "literals")]
    subtypes = [tuple(map(int, line[1:])) if line[0] == "range" else line[1:] for line in described]
    unmade = [line[1].split(".")[-1] for line in lines if line[0] == "unmade"]
    by_mark = dict(zip((mark.lower() for mark in text_driver.marks(text.unit)), subtypes))
    return Shape(by_mark, [line[1:] for line in lines if line[0] == "members"], spelled(text.unit, unmade[0]) if unmade else "")


class Translation:
    """The translation of a script for one unit."""

    def __init__(self, text, script):
        self.unit, self.place = text.unit, text.place
        self.discriminants, options, self.commands = heading(programs.commands(script))
        if "max" in options:
            raise NotExpressible("max: the bound of a queue is static in Ada (D.4, D.7)")
        if "oldest" in options or "rotating" in options:
            raise NotExpressible("another service order than GNAT's")
        if len(self.discriminants) > len(self.unit.discriminants):
            raise Fault("bad unit: too many discriminants")
        if any(not one.default for one in self.unit.discriminants[len(self.discriminants):]):
            raise Fault("bad unit: a discriminant is missing")
        self.shape = shape(text, self.discriminants)
        for word, discriminant in zip(self.discriminants, self.unit.discriminants):
            self.check(word, discriminant.mark)

    def spelled(self, words):
        """Returns the words as the text spells them."""
        return [spelled(self.unit, word) for word in words]

    def check(self, word, mark):
        """Raises a fault if the word is no value of the subtype."""
        known = self.shape.subtypes[mark.lower()]
        if isinstance(known, tuple):
            is_one = NUMBER.fullmatch(word) is not None and known[0] <= int(word) <= known[1]
        else:
            is_one = word in self.spelled(known)
        if not is_one:
            raise Fault(f"'{word}' isn't a value of {mark}")

    def actuals(self, one, words):
        """Checks the actual parameters of the operation, and returns them."""
        wanted = [(mark, one.parameters[place - 1]) for place, _, mode, mark in self.unit.scalars(one.parameters) if mode != "out"]
        if not wanted and len(words) == 1 and NUMBER.fullmatch(words[0]):
            return []
        if len(words) > len(wanted) or not all(parameter.default for _, parameter in wanted[len(words):]):
            raise Fault(f"{one.name} takes {len(wanted)} values, and here are {len(words)}")
        for word, (mark, _) in zip(words, wanted):
            self.check(word, mark)
        return words

    def member(self, one, index):
        """Returns the place of the family's member with that index, or a place that doesn't exist."""
        members = self.spelled(self.shape.members[one.place - 1])
        has_literals = members and not NUMBER.fullmatch(members[0])
        if index not in (self.unit.spellings.values() if has_literals else NUMBER.findall(index)):
            raise Fault(f"'{index}' isn't an index")
        return 1 + (members.index(index) if index in members else len(members))

    def call(self, number, before, words):
        """Returns the line for a call of an entry."""
        written = re.fullmatch(r"(\w+)(?:\(([^()]+)\))?", words[0] if words else "")
        if written is None:
            raise Fault("bad argument")
        one = next((one for one in self.unit.entries if one.name == written[1]), None)
        if one is None:
            return f"{before} Nothing {number}"
        place = "" if written[2] is None else f"({self.member(one, written[2])})"
        if one.has_conditions and before != "call":
            raise NotExpressible("GNAT refuses a conditional or timed call of an entry with Pre or Post")
        return f"{before} Entry_{one.place}{place} {number} 0 {' '.join(self.actuals(one, words[1:]))}"

    def run(self, number, kind, words):
        """Returns the line for a call of a procedure or a function."""
        if not words:
            raise Fault("bad argument")
        found = [place for place, one in enumerate(self.unit.operations, 1)
                 if one.kind == kind and one.is_public and one.name == words[0]]
        if not found:
            return f"proc Nothing {number}"
        return f"proc Own {number} {found[0]} {' '.join(self.actuals(self.unit.operations[found[0] - 1], words[1:]))}"

    def line(self, number, command):
        """Returns the line for the command."""
        match words_of(command):
            case ["call" | "cond" as kind, *words]:
                return self.call(number, kind, words)
            case ["timed", time, *words] if time.isdigit():
                return self.call(number, f"timed {time}", words)
            case ["proc", *words]:
                return self.run(number, "procedure", words)
            case ["func", *words]:
                return self.run(number, "function", words)
            case ["cancel" | "tick", word] if word.isdigit():
                return command
            case ["final"] | ["show"]:
                return command
        raise Fault("bad argument")

    def first_line(self):
        """Returns the line that makes the object."""
        return f"unit {self.place} x {' '.join(self.discriminants)}"

    def text(self):
        """Returns the whole script."""
        lines = [self.first_line()]
        for number, command in enumerate(self.commands, 2):
            try:
                lines.append(self.line(number, command))
            except Fault as fault:
                raise Fault(f"{fault} in '{command}'") from fault
        return "".join(f"{line}\n" for line in lines)


class Answers:
    """What the program wrote on a translated script, and its translation."""

    def __init__(self, translation, written):
        self.unit, self.shape = translation.unit, translation.shape
        kept = re.findall(r"^= ([0-9]+) ([0-9]+) (.*)$", written, re.MULTILINE)
        self.words = {number: self.spelled(words) for number, _, words in kept}
        self.places = {number: int(place) for number, place, _ in kept}
        # The calls that a body ended, also if the task was aborted meanwhile.
        self.ended = {number: int(place) for number, place in re.findall(r"^! ([0-9]+) ([0-9]+)$", written, re.MULTILINE)}
        self.written = [line for line in written.splitlines() if not line.startswith(("= ", "! "))]

    def spelled(self, words):
        """Returns the words with names as the text spells them."""
        return " ".join(spelled(self.unit, word) for word in words.split(" "))

    def end(self, line):
        """Returns the place of the end among those of its command, and the end in words. If a body ended the call of a task that
        was aborted, the task couldn't say how: `?` stands for that."""
        call, kind, *number = line.split(" ")
        if kind in ("done", "raised"):
            return (0, self.places[number[0]]), f"{call} {self.words[number[0]]}"
        if kind == "cancelled" and call in self.ended:
            return (0, self.ended[call]), f"{call} ?"
        return (1, int(call)), line

    def line(self, line):
        """Returns any other line in words."""
        entry, answer = ENTRY.fullmatch(line), re.fullmatch("(?:done|raised) ([0-9]+)", line)
        if entry is not None:
            one = self.unit.entries[int(entry[1]) - 1]
            member = "" if entry[2] is None else f"({self.spelled(self.shape.members[one.place - 1][int(entry[2]) - 1])})"
            return f"{one.name}{member} {entry[3]}"
        return line if answer is None else self.words[answer[1]]

    def lines(self):
        """Returns all lines, with the ends of each command in the order of the bodies that caused them, and then by number."""
        lines, ends = [], []
        for line in self.written:
            if programs.END.fullmatch(line):
                ends.append(self.end(line))
            else:
                lines += [end for _, end in sorted(ends)] + [self.line(line)]
                ends = []
        return lines + [end for _, end in sorted(ends)]


def of_gnat(text, script, step):
    """Returns the lines that GNAT's protected object writes, or None if the machine was too slow for this step of time."""
    translation = Translation(text, script)
    if translation.shape.unmade:
        raise NotExpressible(f"the object can't be made: {translation.shape.unmade}")
    ended = run(text, str(step), translation.text())
    if ended.returncode != 0 and "never woken" not in ended.stdout:
        return None
    return Answers(translation, ended.stdout).lines()
