# SPDX-License-Identifier: MIT
"""Random scripts over all units: any scripts, or those without the constructs by which GNAT is known to differ. These are
conditional calls that could open an entry by being counted, and on the relay all conditional calls, and attempts to cancel a
call that a requeue without abort protects."""

import random

PARAMETER = ("buffer", "meeting", "allocator")
# The names that a script may ask for: the entries of a unit, public ones first, and its procedure.
ENTRIES = {
    "buffer": ["Put", "Get"],
    "signal": ["Wait"],
    "broadcast": ["Receive"],
    "pulse": ["Wait", "Signal"],
    "meeting": ["Wait"],
    "allocator": ["Request", "Claim"],
    "relay": ["First"],
    "trap": ["Wait(1)", "Wait(2)", "Wait(3)", "Fail", "Exact"],
}
PROCEDURE = {"signal": "Send", "broadcast": "Send", "allocator": "Release", "relay": "Set", "trap": "Set"}
REFUSED = ["Nothing", "Put(1)", "Wait", "Wait(0)", "Wait(4)", "Reset", "Grant(1)", "Grant(99)", "Second", "Third", "Exact(2)"]
GREAT = [2**32, 2**32 - 1, 2**63, 2**64 - 1]


class Maker:
    """A script that is being made, and what the exclusions need to know of its object."""

    def __init__(self, chance, leaves_out):
        self.chance = chance
        # Whether it leaves out what GNAT is known to do differently.
        self.leaves_out = leaves_out
        self.unit = chance.choices(list(ENTRIES), [2, 1, 1, 2, 2, 4, 2, 4])[0]
        self.size = chance.randint(1, 5)
        self.lines = [f"unit {self.unit}" + (f" {self.size}" if self.unit in PARAMETER else "")]
        # How often each entry is called, in which ways, and how often each command comes: scripts differ in this.
        self.weights = [chance.choice([1, 1, 6, 20]) for _ in ENTRIES[self.unit]]
        if self.unit == "trap" and chance.random() < 0.5:
            # Many calls on Exact, whose barrier is the one that a cancellation can open.
            self.weights = [1, 1, 1, 1, 60]
        self.levels = chance.choice([[0, 1, 2], [0, 1, 2], [0, 1, 2, 3, 13]])
        self.kinds = chance.choice([["call", "call", "cond", "timed"], ["call", "timed", "timed", "timed"]])
        self.commands = [50, chance.choice([5, 15, 40]), chance.choice([5, 25]), chance.choice([5, 20]), 4]
        self.clock = 0
        self.calls = 0
        self.level = 0
        # The calls that may wait, and those that may wait on Second of a relay.
        self.may_wait = []
        self.protected = set()

    def value(self):
        """Returns a value, mostly one that means something to the unit."""
        if self.chance.random() < 0.03:
            return self.chance.choice(GREAT)
        if self.unit == "allocator":
            return self.chance.choices(range(self.size + 2), [1, *range(3, self.size + 3), 1])[0]
        if self.unit == "relay":
            return self.chance.choice([0, 1, 2, 3])
        if self.unit == "trap":
            return self.chance.choice(self.levels)
        return self.chance.randint(0, 99)

    def may_open_by_being_counted(self, entry):
        """Returns whether a conditional call of the entry could open it by being counted."""
        if self.unit == "meeting":
            return self.calls + 1 >= self.size
        return entry == "Exact" and 0 < self.level <= self.calls + 1

    def kind(self, entry):
        """Returns the first words of a call of the entry."""
        kind = self.chance.choice(self.kinds)
        if kind == "cond" and self.leaves_out and (self.unit == "relay" or self.may_open_by_being_counted(entry)):
            kind = "call"
        if kind != "timed":
            return kind
        is_protected = self.leaves_out and self.unit == "relay" and self.level == 0
        later = 1_000_000 if is_protected else self.chance.choice([-1, 0, 1, 1, 2, 2, 3, 9])
        return f"timed {max(0, self.clock + later)}"

    def call(self):
        """Adds a call of one of the entries."""
        entry = self.chance.choices(ENTRIES[self.unit], self.weights)[0]
        value = self.value()
        kind = self.kind(entry)
        self.lines.append(f"{kind} {entry} {value}")
        self.calls += 1
        if kind != "cond" or entry == "Claim":
            self.may_wait.append(self.calls)
        if self.leaves_out and self.unit == "relay" and self.level == 0:
            self.protected.add(self.calls)
        if entry == "Fail":
            self.level = value

    def procedure(self):
        """Adds a call of the procedure, or of an entry if the unit has none."""
        if self.unit not in PROCEDURE:
            return self.call()
        value = self.value()
        self.lines.append(f"proc {PROCEDURE[self.unit]} {value}")
        if PROCEDURE[self.unit] == "Set":
            self.level = value
            if value > 0:
                self.protected.clear()

    def cancel(self):
        """Adds an attempt to cancel a call that may wait, or else any number."""
        if self.may_wait and self.chance.random() < 0.85:
            number = self.chance.choice(self.may_wait[-6:])
        else:
            number = self.chance.randint(0, self.calls + 1)
        if number not in self.protected:
            self.lines.append(f"cancel {number}")
            if self.chance.random() < 0.7 and number in self.may_wait:
                self.may_wait.remove(number)

    def tick(self):
        """Adds a tick, rarely backwards."""
        to = max(0, self.clock + self.chance.randint(-1, 4))
        self.clock = max(self.clock, to)
        self.lines.append(f"tick {to}")

    def refused(self):
        """Adds a command that the unit refuses."""
        entry = self.chance.choice(REFUSED)
        command = f"call {entry}" if entry not in ENTRIES[self.unit] else "proc State"
        self.lines.append(f"{command} {self.value()}")

    def command(self):
        """Adds one more command."""
        makers = [self.call, self.procedure, self.cancel, self.tick, self.refused]
        self.chance.choices(makers, self.commands)[0]()
        if self.chance.random() < 0.1:
            self.lines.append(f"func State {self.value()}")


def any_script(seed, place):
    """Returns the script at that place among those of the seed, with nothing left out."""
    return script(seed, place, False)


def script(seed, place, leaves_out=True):
    """Returns the script at that place among those of the seed."""
    maker = Maker(random.Random(f"{seed} {place}"), leaves_out)
    for _ in range(maker.chance.randint(6, 36)):
        maker.command()
    if maker.chance.random() < 0.2:
        maker.lines.append("final")
        maker.command()
        maker.command()
    return "".join(f"{line}\n" for line in maker.lines)
