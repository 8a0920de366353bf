# SPDX-License-Identifier: MIT
"""Draws what happens to a call that waits, for docs/OBJECTS.md: who holds the lock, when the flag is set, sleep and waking.

    sequence.py                   writes the picture to standard output
"""

import pathlib
import sys
import textwrap

sys.dont_write_bytecode = True
sys.path.insert(0, str(pathlib.Path(__file__).resolve().parent))

from svg import box, line, picture, tag, text, told

TITLE = "A call that waits, from its issue to its answer"
LANES = ["caller A", "the object, behind its lock", "the seat of A, with its flag", "caller B"]
A, OBJECT, SEAT, B = range(4)
# Who does something, to whom, and what.
STEPS = [
    (A, OBJECT, "takes the lock to change"),
    (OBJECT, OBJECT, "the entry is closed, so the core queues A's call"),
    (A, SEAT, "notes in the flag that the call waits"),
    (A, OBJECT, "releases the lock"),
    (A, SEAT, "looks at the flag, at most 100 times"),
    (A, SEAT, "notes in the flag that A sleeps, and sleeps"),
    (B, OBJECT, "takes the lock to change"),
    (OBJECT, OBJECT, "B's call opens the entry, and A's call ends"),
    (B, SEAT, "notes in the flag that the call has ended"),
    (B, OBJECT, "releases the lock"),
    (B, A, "wakes A"),
    (A, OBJECT, "checks under the lock whether its call has ended"),
    (A, OBJECT, "takes the lock to change, fetches the end of its call, and files the receipt"),
    (A, A, "returns the answer"),
]
# Who holds the lock, and who sleeps, from which step to which.
LOCKED = [(A, 1, 4), (B, 7, 10), (A, 12, 12), (A, 13, 13)]
SLEEPS = [(A, 6, 11)]
# In pixels: the middle of the first lane, the distance of two lanes, the height of a step, and the upper edge of the first step.
FIRST, BETWEEN, STEP, TOP = 130, 240, 46, 76


def x(lane):
    """Returns the middle of a lane."""
    return float(FIRST + BETWEEN * lane)


def y(step):
    """Returns the height of a step."""
    return float(TOP + STEP * (step - 0.3))


def words_at(middle, bottom, words, letters):
    """Returns words in lines above this height."""
    lines = textwrap.wrap(words, letters)
    return "".join(text(middle, bottom - 14 * (len(lines) - 1 - n), it, "prose halo", "middle") for n, it in enumerate(lines))


def step(number, who, whom, words):
    """Returns a step: an arrow, or words at one lane."""
    mark = text(14, y(number) + 4, str(number), "quiet")
    if who == whom:
        shape = words_at(x(who), y(number) + 4, words, 28)
    else:
        way = 8 if x(whom) > x(who) else -8
        head = tag("path", {"d": f"M{x(whom):.1f} {y(number):.1f}l{-way} -4v8z", "class": "head-of"})
        middle = (x(who) + x(whom)) / 2 if abs(who - whom) == 1 else x(who) + way / 8 * BETWEEN / 2
        shape = line(x(who), y(number), x(whom) - way, y(number), "arrow") + head + words_at(middle, y(number) - 6, words, 37)
    return told(f"Step {number}, {LANES[who]}: {words}", mark, shape)


def draw():
    """Returns the picture."""
    height = y(len(STEPS)) + 60
    parts = [text(14, 26, TITLE, "prose head")]
    for n, name in enumerate(LANES):
        parts += [line(x(n), 64, x(n), height - 44, "rule"), box(x(n) - 100, 42.0, 200.0, 24.0, "crate", 3.0)]
        parts.append(text(x(n), 58, name, "prose", "middle"))
    for who, first, last in LOCKED:
        parts.append(told(f"{LANES[who]} holds the lock", box(x(who) - 5, y(first) - 3, 10.0, y(last) - y(first) + 6, "full")))
    for who, first, last in SLEEPS:
        asleep = box(x(who) - 5, y(first) + 5, 10.0, y(last) - y(first) - 10, "bar c0")
        parts.append(told(f"{LANES[who]} sleeps", asleep))
    parts += [step(n, *it) for n, it in enumerate(STEPS, 1)]
    bottom = height - 16
    parts += [box(14.0, bottom - 9, 10.0, 12.0, "full"), text(30, bottom + 1, "holds the lock", "prose")]
    parts += [box(134.0, bottom - 9, 10.0, 12.0, "bar c0"), text(150, bottom + 1, "sleeps", "prose")]
    said = " ".join(f"{n}: {LANES[who]}, {words}." for n, (who, _, words) in enumerate(STEPS, 1))
    return picture(x(B) + FIRST, height, TITLE, said, "sequence diagram", parts)


if __name__ == "__main__":
    sys.stdout.buffer.write(draw().encode())
