# SPDX-License-Identifier: MIT
"""The story of a script: its commands, and on which queue each call was after each of them. It is worked out from the answers to a
copy of the script, which asks for `State` and `show` after each command."""

import re
from dataclasses import dataclass, field

END = re.compile(r"([0-9]+) (done(?: .*)?|raised .+|cancelled|program_error)")
# What the copy has after each command. A function of an Ada text that takes no value is called without one.
ASKED, ASKED_OF_TEXT = b"func State 0\nshow\n", b"func State\nshow\n"


class Unread(Exception):
    """The answers aren't those of the script."""


@dataclass
class Command:
    """A command that was carried out: its line, its words, its own answer, and the calls that it ended and how. Then the state
    after it: what the function State answers, how many calls wait on each entry, and the clock."""

    line: int
    words: list
    answer: str
    ends: list
    state: str
    counts: dict
    clock: str

    @property
    def text(self):
        """Returns the command as it is written."""
        return " ".join(self.words)


@dataclass
class Call:
    """A call: its number, its words, and the command that issued it. Then its stays in queues, each a list of the entry and of the
    commands at which the call came and left (None if it never left); the commands that failed to cancel it (`kept`); and the
    command at which it ended, and how. A command is given by its place among all commands."""

    number: int
    words: list
    begun: int
    stays: list = field(default_factory=list)
    kept: list = field(default_factory=list)
    ended: object = None
    how: str = ""

    @property
    def text(self):
        """Returns the call as it is written."""
        return f"#{self.number} {' '.join(self.words)}"


@dataclass
class Story:
    """All commands except `show`, the calls by their numbers, the entries in order, and the fault that ended the script: its line,
    what the line says, and what is wrong with it."""

    commands: list
    calls: dict
    entries: list
    fault: tuple = None


def lines_of(script):
    """Returns the lines of the script as texts. It may have any bytes."""
    lines = script.split(b"\n")
    return [it.decode("utf-8", "replace") for it in (lines if lines[-1] else lines[:-1])]


def words_of(line):
    """Returns the words of a line, or none if the line is a comment."""
    words = [it for it in line.split(" ") if it]
    return [] if words and words[0].startswith("#") else words


def commands_of(script):
    """Returns the words of each line that has a command, by its number."""
    return {n: words for n, it in enumerate(lines_of(script), 1) if (words := words_of(it))}


def text_of(script):
    """Returns the name of the Ada text that the first command names, or None: `unit file "NAME"`."""
    number, words = next(iter(commands_of(script).items()), (0, []))
    quoted = lines_of(script)[number - 1].split('"') if words[:2] == ["unit", "file"] else []
    return quoted[1] if len(quoted) > 2 else None


def asking(script, asked=ASKED):
    """Returns the copy that asks for the state, and for each of its lines the number of the script's own line."""
    commands, copy, numbers = commands_of(script), [], []
    for number, it in enumerate(script.split(b"\n")[: len(lines_of(script))], 1):
        copy += [it + b"\n", asked if number in commands else b""]
        numbers += [number] * (3 if number in commands else 1)
    return b"".join(copy), numbers


def segments(commands, answers):
    """Yields each command that was carried out, with all answers up to the end of the `show` after it."""
    rest = iter(answers)
    for number, words in list(commands.items()):
        shows, segment = (2 if words[0] == "show" else 1), []
        while shows:
            line = next(rest, None)
            if line is None:
                return
            segment.append(line)
            shows -= line.startswith("next ")
        yield number, words, segment


def command_of(number, words, segment, entries):
    """Returns a command from the answers to it and to what the copy asks after it. `entries` says how many entries the unit has."""
    shown = len(segment) - entries - 2
    state, counts = segment[shown - 1], dict(it.rsplit(" ", 1) for it in segment[shown:-2])
    own = [it for it in segment[: shown - 1] if not END.fullmatch(it)]
    ends = [(int(it[1]), it[2]) for it in map(END.fullmatch, segment[: shown - 1]) if it]
    answer = own[0] if own and words[0] != "show" else ""
    told = state[len("value ") :] if state.startswith("value ") else "none" if state.startswith("refused") else state
    counts = {entry: int(count) for entry, count in counts.items()}
    return Command(number, words, answer, ends, told, counts, segment[-2][len("clock ") :])


def move(queues, command, new):
    """Changes the queues to what they are after the command. `new` is the call that it issued, or None. Each queue is in order of
    arrival, so the calls that left one for another were its first."""
    ended = {number for number, _ in command.ends}
    for queue in queues.values():
        queue[:] = [it for it in queue if it not in ended]
    lacking = [entry for entry, count in command.counts.items() if len(queues[entry]) < count]
    arriving = []
    for entry, count in command.counts.items():
        more = max(len(queues[entry]) - count, 0)
        arriving += queues[entry][:more]
        del queues[entry][:more]
    arriving += [new] if new is not None and new not in ended else []
    for entry in lacking:
        queues[entry] += arriving
    if {entry: len(queue) for entry, queue in queues.items()} != command.counts:
        raise Unread(f"line {command.line}: the lengths of the queues don't say where each call waits")


def waiting(queues):
    """Returns the entry on which each waiting call is queued, by its number."""
    return {number: entry for entry, queue in queues.items() for number in queue}


def note_stays(calls, before, after, place):
    """Notes which calls left a queue at the command of this place, and which came into one."""
    for number, entry in before.items():
        if after.get(number) != entry:
            calls[number].stays[-1][2] = place
    for number, entry in after.items():
        if before.get(number) != entry:
            calls[number].stays.append([entry, place, None])


def note(calls, queues, command, place):
    """Notes what the command of this place did to calls."""
    new, before = int(command.answer[1:]) if command.answer.startswith("#") else None, waiting(queues)
    if new is not None:
        calls[new] = Call(new, command.words, place)
    move(queues, command, new)
    for number, how in command.ends:
        calls[number].ended, calls[number].how = place, how
    if command.answer == "kept":
        calls[int(command.words[1])].kept.append(place)
    note_stays(calls, before, waiting(queues), place)


def read(script, answers, fault=None):
    """Returns the story of a script, from the answers to its copy. The fault is the number of its line, and what is wrong with
    it."""
    story, queues = Story([], {}, []), {}
    wanted = {number: words for number, words in commands_of(script).items() if fault is None or number < fault[0]}
    try:
        for number, words, segment in segments(wanted, answers.splitlines()):
            del wanted[number]
            if not queues:
                story.entries = [it.rsplit(" ", 1)[0] for it in segment[1:-2]]
                queues = {entry: [] for entry in story.entries}
            command = command_of(number, words, segment, len(queues))
            if words[0] != "show":
                note(story.calls, queues, command, len(story.commands))
                story.commands.append(command)
    except (ValueError, IndexError, KeyError) as wrong:
        raise Unread(f"the answers aren't those of the script: {wrong}") from wrong
    if wanted:
        raise Unread(f"line {min(wanted)}: there is no answer to it")
    if fault is not None:
        story.fault = (fault[0], lines_of(script)[fault[0] - 1], fault[1])
    return story
