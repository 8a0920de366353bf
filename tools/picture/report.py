# SPDX-License-Identifier: MIT
"""What a report of `pobj explore` says: each finding with its script. Lines of the script, comments among them, say who makes each
command, what is answered, whose waiting call a command ends, who waits at the end, and which values the objects have then."""

import re
from dataclasses import dataclass, field

INDENT = "    "
# The comments of a script. The answer of a command comes below it, before other words alone: these name who makes the commands below.
ANSWER = re.compile(r"# ((?:done|value|raised|refused|clock) .+|done|cancelled|program_error|kept|final)")
CALLER = re.compile(r"# (\w+)")
GOES_ON = re.compile(r"# (\w+) goes on: (.+)")
WAITS = re.compile(r"# (\w+) waits: .*")
NO_CALL = re.compile(r"# (abort \w+): (.+)")
VALUES = re.compile(r"# (the object|\w+): (.+)")


class Unread(Exception):
    """The text isn't a report."""


@dataclass
class Command:
    """A command: its caller, how it is written, and what it answers, or nothing if it answers `done` or waits."""

    caller: str
    text: str
    answer: str = ""

    @property
    def verb(self):
        """Returns the command's first word."""
        return self.text.split(" ")[0]


@dataclass
class Wait:
    """A call that waits: the command that issued it, the one that ended it, and how. If none did, `ended` is None. A command is
    given by its place among all commands."""

    caller: str
    begun: int
    ended: object = None
    answer: str = ""


@dataclass
class Finding:
    """A finding: the line that says what it is; the lines that make the objects; the commands in order; the calls that waited; and
    each object's values at the end."""

    title: str
    objects: list = field(default_factory=list)
    commands: list = field(default_factory=list)
    waits: list = field(default_factory=list)
    values: list = field(default_factory=list)

    @property
    def is_hang(self):
        """Returns whether who waits at the end waits for ever."""
        return self.title.startswith("callers wait for ever")

    @property
    def callers(self):
        """Returns the callers in the order of their first commands."""
        return list(dict.fromkeys(it.caller for it in self.commands))


class Script:
    """Reads the lines of a finding's script. `last` has the place of each caller's last command."""

    def __init__(self, title):
        self.finding, self.caller, self.last, self.is_answered = Finding(title), "", {}, True

    def take(self, line):
        """Takes a line."""
        if not line.startswith("#"):
            self.take_command(line)
        elif not self.is_answered and (found := ANSWER.fullmatch(line)):
            self.finding.commands[-1].answer = found[1]
            self.is_answered = True
        else:
            self.take_comment(line)

    def take_command(self, line):
        """Takes a line that is no comment: it makes an object, is a command, or shows the object."""
        if line.split(" ")[0] in ("object", "unit"):
            self.finding.objects.append(line)
        elif line and line != "show":
            self.add(line)
            self.is_answered = False

    def add(self, text, answer=""):
        """Adds a command of the present caller."""
        self.last[self.caller] = len(self.finding.commands)
        self.finding.commands.append(Command(self.caller, text, answer))

    def wait(self, caller, ended=None, answer=""):
        """Notes that the last command of a caller waited."""
        if caller not in self.last:
            raise Unread(f"{caller} waits, and has made no command")
        self.finding.waits.append(Wait(caller, self.last[caller], ended, answer))

    def take_comment(self, line):
        """Takes a comment that isn't the answer of the last command. One that isn't known says nothing."""
        if found := CALLER.fullmatch(line):
            self.caller, self.is_answered = found[1], True
        elif found := GOES_ON.fullmatch(line):
            self.wait(found[1], len(self.finding.commands) - 1, found[2])
        elif found := WAITS.fullmatch(line):
            self.wait(found[1])
        elif found := NO_CALL.fullmatch(line):
            self.add(*found.groups())
            self.is_answered = True
        elif found := VALUES.fullmatch(line):
            self.finding.values.append(found.groups())


def read(text):
    """Returns the findings of a report that have scripts, in order."""
    scripts = []
    for line in text.split("\n"):
        if not line.startswith(INDENT):
            scripts.append(Script(line.removesuffix(":")))
        elif scripts:
            scripts[-1].take(line[len(INDENT) :])
    return [it.finding for it in scripts if it.finding.commands]
