# SPDX-License-Identifier: MIT
"""What a terminal shows. Of a script that is typed, each answer has to come before the next line is typed, and a fault gets its
message. A search says how far it is, and ^C has it tell what was found so far."""

import os
import pty
import select
import sys
import tempfile

# How many seconds an answer may take.
LIMIT = 20
HINT = "pobj: each line is carried out when it is ended; Ctrl-D at its beginning ends the script"
# A scene of ten callers with ten calls each: no search through it ever ends.
SCENE = 'unit file "examples/ada/buffer.adb" 2\n' + "".join(
    f"caller Producer_{number}\n  repeat 10\n  call Put {number}\ncaller Consumer_{number}\n  repeat 10\n  call Get 0\n"
    for number in range(5)
)
INTERRUPT = b"\x03"
# What is typed, and what has to be shown after it.
TYPED = [
    ("unit buffer 2\ncall Get 0\n", "#1"),
    ("call Put 7\n", "1 done 7"),
    ("cal Put 8\n", "pobj: line 4: unknown command"),
    ("", "pobj: `pobj check FILE` explains what is wrong with a script"),
]


def read_until(terminal, shown, wanted):
    """Waits until the wanted text is shown, and returns all that was shown."""
    while wanted not in shown:
        ready, _, _ = select.select([terminal], [], [], LIMIT)
        if not ready:
            sys.exit(f"not shown: {wanted!r}; shown: {shown!r}")
        try:
            shown += os.read(terminal, 4096).decode()
        except OSError:
            sys.exit(f"the program ended before it showed {wanted!r}; shown: {shown!r}")
    return shown


def ended(child):
    """Returns the status with which the program ends."""
    _, status = os.waitpid(child, 0)
    return os.waitstatus_to_exitcode(status)


def at_terminal(words):
    """Runs a program at a terminal, and returns both."""
    child, terminal = pty.fork()
    if child == 0:
        os.execv(words[0], words)
    return child, terminal


def typed(program):
    """Types the script, and returns the status with which the program ends."""
    child, terminal = at_terminal([program, "run"])
    shown = read_until(terminal, "", HINT)
    for line, answer in TYPED:
        os.write(terminal, line.encode())
        shown = read_until(terminal, shown, answer)
    return ended(child)


def interrupted(program):
    """Ends a search by ^C, and returns the status with which the program ends."""
    with tempfile.NamedTemporaryFile("w", suffix=".scene") as scene:
        scene.write(SCENE)
        scene.flush()
        child, terminal = at_terminal([program, "explore", scene.name, "--most", "1000000000"])
        shown = read_until(terminal, "", "situations, ")
        os.write(terminal, INTERRUPT)
        read_until(terminal, shown, "not complete")
        return ended(child)


def main(program, what):
    """Does what is asked for, and compares the status."""
    status, wanted = (interrupted(program), 7) if what == "explore" else (typed(program), 1)
    if status != wanted:
        sys.exit(f"status {status}, wanted {wanted}")


main(*sys.argv[1:])
