# SPDX-License-Identifier: MIT
"""The marks of a time line. The form of each says what happened, so that no reader needs its colour."""

from svg import box, line, tag


def path(way, kind):
    """Returns a path."""
    return tag("path", {"d": way, "class": kind})


def issued(x, y):
    """Marks that a call was issued."""
    return tag("circle", {"cx": x, "cy": y, "r": 4.5, "class": "open"})


def done(x, y):
    """Marks that a call was served."""
    return tag("circle", {"cx": x, "cy": y, "r": 5.0, "class": "full"})


def raised(x, y):
    """Marks that the body of a call raised an exception."""
    return path(f"M{x:.1f} {y - 7:.1f}l7 7l-7 7l-7 -7z", "full")


def cancelled(x, y):
    """Marks that a call was cancelled."""
    cross = f"M{x - 5:.1f} {y - 5:.1f}l10 10m0 -10l-10 10"
    return path(cross, "under") + path(cross, "thick")


def program_error(x, y):
    """Marks that a call ended by Program_Error."""
    return path(f"M{x:.1f} {y - 7:.1f}l7 12h-14z", "full")


def kept(x, y):
    """Marks that a call was not cancelled, since a requeue without abort protects it."""
    return issued(x, y) + path(f"M{x - 3:.1f} {y - 3:.1f}l6 6m0 -6l-6 6", "thick")


def procedure(x, y):
    """Marks that a procedure ran."""
    return box(x - 4.5, y - 4.5, 9.0, 9.0, "full")


def function(x, y):
    """Marks that a function was called."""
    return box(x - 4.0, y - 4.0, 8.0, 8.0, "open")


def tick(x, y):
    """Marks that the clock was set forward."""
    return tag("circle", {"cx": x, "cy": y, "r": 5.5, "class": "open"}) + path(f"M{x:.1f} {y - 4:.1f}v4h3", "thick")


def final(x, y):
    """Marks that the object was finalized."""
    return box(x - 9.0, y - 3.0, 18.0, 6.0, "full")


def fault(x, y):
    """Marks a fault of the script."""
    stroke = line(x, y - 3, x, y + 1, "hole") + line(x, y + 3, x, y + 4.5, "hole")
    return path(f"M{x:.1f} {y - 9:.1f}l9 15h-18z", "alarm") + stroke


def swatch(colour):
    """Returns a function that draws a piece of a bar in this colour."""
    return lambda x, y: box(x - 9, y - 6, 18.0, 12.0, f"bar {colour}", 2.0)


OF_COMMANDS = {"proc": procedure, "func": function, "cancel": cancelled, "tick": tick, "final": final, "": fault}
OF_ENDS = {"done": done, "raised": raised, "cancelled": cancelled, "program_error": program_error}
# The marks with their names, in the order of the legend below a picture.
NAMES = {
    "call": (issued, "call issued"),
    "done": (done, "done"),
    "raised": (raised, "raised"),
    "cancelled": (cancelled, "cancelled"),
    "program_error": (program_error, "program_error"),
    "kept": (kept, "kept: not cancelled"),
    "proc": (procedure, "procedure"),
    "func": (function, "function"),
    "cancel": (cancelled, "cancel"),
    "tick": (tick, "tick of the clock"),
    "final": (final, "final"),
    "": (fault, "fault of the script"),
}
