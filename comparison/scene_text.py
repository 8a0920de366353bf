# SPDX-License-Identifier: MIT
"""Reads a scene of `pobj explore`, and the scripts that it reports. docs/EXPLORE.md says what they have."""

import dataclasses
import pathlib
import re

import programs
import texts

OBJECT = re.compile(r' *(?:unit|object +(\w+)) +file +"([^"]*)"(.*)')
# An operation with its object's name.
NAMED = re.compile(r"([^.(]*)\.(.*)")
# The comments of a report: which callers wait at the end, and the answers to a command.
WAITS = re.compile(r"# (\w+ waits: .*)")
ANSWER = re.compile(r"# (\w+ goes on: .*|value .*|done .*|raised .*|cancelled|program_error)")
CALLS = ("call", "cond", "timed")


@dataclasses.dataclass
class SceneObject:
    """An object: its name, its text, and the words after the name of the file."""

    name: str
    file: pathlib.Path
    words: str

    @property
    def line(self):
        """Returns the first line of a script of this object alone."""
        return f"unit {self.file.stem} {self.words}".strip()


@dataclasses.dataclass
class Scene:
    """The objects, and the commands of each caller by its name."""

    objects: list
    callers: dict


@dataclasses.dataclass
class Step:
    """A command that a caller makes, and what a report tells of it."""

    caller: str
    line: str
    told: set = dataclasses.field(default_factory=set)


@dataclasses.dataclass
class Part:
    """What a step does on the object of that place: the command there, and the lines that GNAT's program writes at it."""

    step: int
    caller: str
    place: int
    command: str
    lines: list = dataclasses.field(default_factory=list)


def plain(line):
    """Returns the words of the line, with one space between them."""
    return " ".join(texts.words_of(line))


def object_of(line):
    """Returns the object that the line makes."""
    made = OBJECT.fullmatch(line)
    if made is None:
        raise programs.Failed(f"an object without a file: {line}")
    return SceneObject(made[1] or "", pathlib.Path(made[2]), plain(made[3]))


def objects_in(text):
    """Returns the objects that a scene or a script makes."""
    return [object_of(line) for line in programs.commands(text) if texts.words_of(line)[0] in ("unit", "object")]


def commands_of(parts):
    """Returns the commands of a caller, of which each part comes that many times."""
    return [line for times, lines in parts for line in lines * times]


def callers_in(text):
    """Returns the commands of each caller of a scene."""
    found, parts = {}, []
    for line in programs.commands(text):
        match texts.words_of(line):
            case ["caller", name]:
                parts = found[name] = [(1, [])]
            case ["repeat", times]:
                parts.append((int(times), []))
            case words if parts:
                parts[-1][1].append(" ".join(words))
    return {name: commands_of(parts) for name, parts in found.items()}


def read(text):
    """Returns the scene of the text."""
    return Scene(objects_in(text), callers_in(text))


def steps_of(scene, script):
    """Returns the steps of a reported script, and what it says of the callers that wait at its end."""
    steps, waits, caller = [], set(), ""
    for line in map(plain, script.splitlines()):
        if line.startswith("# ") and line[2:] in scene.callers:
            caller = line[2:]
        elif WAITS.fullmatch(line):
            waits.add(line[2:])
        elif ANSWER.fullmatch(line):
            steps[-1].told.add(line[2:])
        elif line and line.split(" ")[0] not in ("#", "object"):
            steps.append(Step(caller, line))
    return steps, waits


def waits_of(steps, waiting):
    """Returns what a report says of these callers, which wait after the steps."""
    last = {step.caller: step.line for step in steps}
    return {f"{name} waits: {last[name]}" for name in waiting}


def by_step(steps, parts):
    """Returns for each step its parts."""
    found = [[] for _ in steps]
    for part in parts:
        found[part.step].append(part)
    return found


def addressed(scene, line):
    """Returns the place of the object that the command is about, and the command without the object's name."""
    words, names = texts.words_of(line), [one.name for one in scene.objects]
    at = 2 if words[0] == "timed" else 1
    named = NAMED.fullmatch(words[at]) if len(words) > at else None
    if words[0] == "final" and words[1:]:
        return names.index(words[1]), "final"
    if named is None or named[1] not in names:
        return 0, line
    return names.index(named[1]), " ".join([*words[:at], named[2], *words[at + 1:]])


def parts_of(scene, steps):
    """Yields what the steps do on the objects. An `abort` is about the object of the last call of the caller that it names."""
    places = {}
    for number, step in enumerate(steps):
        kind, *words = step.line.split(" ")
        if kind == "tick":
            yield from (Part(number, step.caller, place, step.line) for place in range(len(scene.objects)))
        elif kind != "abort":
            place, command = addressed(scene, step.line)
            places.update({step.caller: place} if kind in CALLS else {})
            yield Part(number, step.caller, place, command)
        elif words[0] in places:
            yield Part(number, step.caller, places[words[0]], step.line)
