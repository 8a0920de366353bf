# SPDX-License-Identifier: MIT
"""Numbers calls as GNAT's program does. A call whose precondition fails has no number for pobj, and its answer is `raised E`. GNAT's
program gives it the next number, n, and answers `#n` and `n raised E`."""

import re

import programs

CALLS = ("call", "cond", "timed")
OWN = {"cancel": r"kept|refused .*", "show": r"(?!next ).*"}


class Numbers:
    """The answers of pobj, command by command, with GNAT's numbers."""

    def __init__(self, answers):
        self.rest = list(answers)
        # The number of each of pobj's calls for GNAT, and how many calls failed.
        self.known, self.failed = {}, 0
        self.lines = []

    def of(self, number):
        """Returns GNAT's number of a call."""
        return self.known.get(number, str(int(number) + self.failed))

    def take(self, pattern):
        """Takes the next line if it matches."""
        if self.rest and re.fullmatch(pattern, self.rest[0]):
            return self.rest.pop(0)
        return None

    def issued(self, own):
        """Adds the answer of a call itself."""
        number = self.of(own[1:]) if own.startswith("#") else ""
        if own.startswith("raised "):
            number = str(len(self.known) + self.failed + 1)
            self.failed += 1
            self.lines += [f"#{number}", f"{number} {own}"]
        elif number:
            self.known[own[1:]] = number
            self.lines.append(f"#{number}")
        else:
            self.lines.append(own)

    def answered(self, kind):
        """Adds the answer of a command of that kind."""
        if kind in CALLS:
            self.issued(self.take(".*") or "")
        elif kind == "show":
            while line := self.take(OWN["show"]):
                self.lines.append(line)
            last = self.take("next .*") or "next 0"
            self.lines.append(f"next {self.of(last[5:])}")
        elif line := self.take(OWN.get(kind, ".*")):
            self.lines.append(line)
        while end := self.take(programs.END.pattern):
            number, rest = end.split(" ", 1)
            self.lines.append(f"{self.of(number)} {rest}")


def as_gnat(script, answers):
    """Returns the script and pobj's answers to it, with GNAT's numbers of calls."""
    if not answers:
        return script, answers
    commands, numbers = [], Numbers(answers)
    for command in programs.commands(script):
        kind, *words = command.split()
        if kind == "cancel" and words:
            command = f"cancel {numbers.of(words[0])}"
        commands.append(command)
        if kind != "unit":
            numbers.answered(kind)
    return "".join(f"{command}\n" for command in commands), numbers.lines + numbers.rest
