#!/usr/bin/env python3
# SPDX-License-Identifier: MIT
"""Writes random scripts over the eight units, with every command that the engine can carry out, into the files 00001.pobj,
00002.pobj and so on of a folder: random.py FOLDER COUNT [SEED]. The same seed gives the same ones.

It makes its own random numbers, so they are the same in every version of Python, and it doesn't need the module `random`,
which a file of this name hides."""

import os
import sys

SIZED = ("buffer", "meeting", "allocator")
# The entries of each unit that a script may call, and its procedure.
ENTRIES = {
    "buffer": ("Put", "Get"),
    "signal": ("Wait",),
    "broadcast": ("Receive",),
    "pulse": ("Wait", "Signal"),
    "meeting": ("Wait",),
    "allocator": ("Request", "Claim"),
    "relay": ("First",),
    "trap": ("Wait(1)", "Wait(2)", "Wait(3)", "Fail", "Exact"),
}
PROCEDURES = {"signal": "Send", "broadcast": "Send", "allocator": "Release", "relay": "Set", "trap": "Set"}
# How often each unit comes.
UNITS = {"buffer": 2, "signal": 1, "broadcast": 1, "pulse": 2, "meeting": 2, "allocator": 4, "relay": 4, "trap": 5}
# What most units refuse.
STRANGE_ENTRIES = (
    "Nothing Nothing(1) State put Put(1) Get(0) Wait Wait(0) Wait(4) Wait(-1) Wait(-2147483648) Reset Grant Grant(1) "
    "Grant(1024) Second Third(1) First(1) Exact(2) Fail(2147483647)"
).split()
STRANGE_OPERATIONS = ("proc State", "proc Nothing", "proc send", "func Set", "func Put", "func Nothing")
GREAT = (2**32 - 1, 2**32, 2**63, 2**64 - 1)
MASK = 2**64 - 1


class Chance:
    """A source of random numbers (SplitMix64)."""

    def __init__(self, *seeds):
        self.state = 0
        for seed in seeds:
            self.state = (self.number() + seed) & MASK

    def number(self):
        """Returns a number of 64 bits."""
        self.state = (self.state + 0x9E3779B97F4A7C15) & MASK
        mixed = ((self.state ^ (self.state >> 30)) * 0xBF58476D1CE4E5B9) & MASK
        mixed = ((mixed ^ (mixed >> 27)) * 0x94D049BB133111EB) & MASK
        return mixed ^ (mixed >> 31)

    def within(self, low, high):
        """Returns a number from low to high."""
        return low + self.number() % (high - low + 1)

    def happens(self, percent):
        """Returns true in this many of a hundred cases."""
        return self.within(0, 99) < percent

    def one_of(self, things):
        """Returns one of the things."""
        return things[self.within(0, len(things) - 1)]

    def weighted(self, weights):
        """Returns one of the keys, each as often as its weight says."""
        left = self.within(0, sum(weights.values()) - 1)
        for thing, weight in weights.items():
            if left < weight:
                return thing
            left -= weight
        raise AssertionError("the weights have no such sum")


class Script:
    """A script that is being made. Scripts differ in how often each command and each entry comes."""

    def __init__(self, chance):
        self.chance = chance
        self.unit = chance.weighted(UNITS)
        self.size = chance.within(1, 5)
        self.entries = {entry: chance.one_of((1, 1, 6, 20)) for entry in ENTRIES[self.unit]}
        self.levels = chance.one_of(((0, 1), (0, 1, 2), (0, 1, 2, 3), (0, 1, 2, 3, 13), (0, 2, 2, 3), (0, 13, 13)))
        kinds = ("call", "call call cond timed", "call timed timed", "cond timed")
        self.kinds = chance.one_of(kinds).split()
        self.commands = {
            self.call: 50,
            self.procedure: chance.one_of((5, 15, 40)),
            self.cancel: chance.one_of((3, 10, 40)),
            self.tick: chance.one_of((3, 10, 40)),
            self.look: 5,
            self.strange: 4,
            self.finalize: chance.one_of((0, 0, 1)),
        }
        self.shows = chance.one_of((5, 20, 100))
        self.clock = 0
        self.calls = 0
        self.lines = [self.beginning()]

    def beginning(self):
        """Returns the line that makes the object."""
        words = ["unit", self.unit]
        if self.unit in SIZED:
            words.append(self.number(self.size))
        if self.chance.happens(30):
            words.append("textual")
        if self.chance.happens(30):
            words += ["max", self.number(self.chance.one_of((1, 1, 2, 2, 3, 2**64 - 1)))]
        return " ".join(words)

    def number(self, value):
        """Returns the number as text, rarely with leading zeros."""
        return f"{value:020}" if self.chance.happens(1) else str(value)

    def value(self):
        """Returns a value, mostly one that means something to the unit."""
        if self.chance.happens(3):
            return self.number(self.chance.one_of(GREAT))
        if self.unit == "allocator":
            return self.number(self.chance.within(0, self.size + 1))
        if self.unit in ("relay", "trap"):
            return self.number(self.chance.one_of(self.levels))
        return self.number(self.chance.within(0, 99))

    def kind(self):
        """Returns the first words of a call."""
        kind = self.chance.one_of(self.kinds)
        if kind != "timed":
            return kind
        return f"timed {self.number(max(0, self.clock + self.chance.one_of((-1, 0, 1, 1, 2, 2, 3, 9))))}"

    def call(self):
        """Adds a call of an entry."""
        self.calls += 1
        self.lines.append(f"{self.kind()} {self.chance.weighted(self.entries)} {self.value()}")

    def procedure(self):
        """Adds a call of the procedure, or of an entry if the unit has none."""
        if self.unit in PROCEDURES:
            self.lines.append(f"proc {PROCEDURES[self.unit]} {self.value()}")
        else:
            self.call()

    def cancel(self):
        """Adds an attempt to cancel a call, mostly one of the last."""
        latest = max(0, self.calls - self.chance.one_of((0, 0, 0, 1, 1, 2, 3, 5)))
        number = self.chance.within(0, self.calls + 1) if self.chance.happens(10) else latest
        self.lines.append(f"cancel {self.number(number)}")

    def tick(self):
        """Adds a tick, rarely backwards."""
        time = max(0, self.clock + self.chance.within(-1, 4))
        self.clock = max(self.clock, time)
        self.lines.append(f"tick {self.number(time)}")

    def look(self):
        """Adds a call of the function."""
        self.lines.append(f"func State {self.value()}")

    def strange(self):
        """Adds a command that is refused, or a line without one."""
        command = self.chance.one_of(
            (
                f"{self.kind()} {self.chance.one_of(STRANGE_ENTRIES)} {self.value()}",
                f"{self.chance.one_of(STRANGE_OPERATIONS)} {self.value()}",
                "  ",
                "# Nothing is said here.",
            )
        )
        self.lines.append(command)

    def finalize(self):
        """Adds the end of the object, after which each command is refused."""
        self.lines.append("final")

    def go_on(self):
        """Adds one more command, and perhaps a `show` of the queues."""
        self.chance.weighted(self.commands)()
        if self.chance.happens(self.shows):
            self.lines.append("show")

    def spaced(self, line):
        """Returns the line, rarely with more spaces than it needs."""
        return "  " + line.replace(" ", "  ") + " " if self.chance.happens(2) else line

    def text(self, length):
        """Returns a script of this many lines."""
        while len(self.lines) < length:
            self.go_on()
        return "".join(f"{self.spaced(line)}\n" for line in self.lines[:length])


def script(seed, place):
    """Returns the script at that place among those of the seed."""
    chance = Chance(seed, place)
    return Script(chance).text(chance.within(5, 60))


def main(words):
    """Writes the scripts that the words ask for."""
    folder, count, seed = words[0], int(words[1]), int(words[2]) if len(words) > 2 else 1
    os.makedirs(folder, exist_ok=True)
    for place in range(1, count + 1):
        with open(os.path.join(folder, f"{place:05}.pobj"), "w", encoding="ascii") as file:
            file.write(script(seed, place))


if __name__ == "__main__":
    if len(sys.argv) not in (3, 4):
        sys.exit("usage: random.py FOLDER COUNT [SEED]")
    main(sys.argv[1:])
