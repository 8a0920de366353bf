# SPDX-License-Identifier: MIT
"""How many instructions a call takes by plain GNAT and over the engine, as valgrind counts them. They hardly change from run to
run, however busy the machine is: so each has a limit."""

import re
import shutil

import ada_programs
import programs
import speed

# How many instructions a call of each kind may take over the engine: a line for each, its name and its limit.
LIMITS = programs.HERE / "instructions.txt"
# How often the calls of a row are made: the difference leaves out what the program does before and after.
TURNS = (2_000, 4_000)
# How many of a turn's instructions are the program's own.
OWN = 30


def limits():
    """Returns the limit of each row."""
    lines = [line.split() for line in LIMITS.read_text().splitlines() if line and not line.startswith("#")]
    return {name: int(limit) for name, limit in lines}


def counted(work, turns, environment):
    """Returns how many instructions the program executes if one task does the work this often."""
    words = ["valgrind", "--tool=callgrind", "--callgrind-out-file=/dev/null", str(programs.OUT / "speed")]
    ended = programs.run([*words, work, "1", str(turns)], "", environment=environment)
    found = re.search(r"Collected : ([0-9]+)", ended.stderr)
    if ended.returncode != 0 or found is None:
        raise programs.Failed(f"valgrind counts no instructions of {work}, status {ended.returncode}:\n{ended.stderr}")
    return int(found[1])


def of_call(work, environment=None):
    """Returns how many instructions a call takes."""
    few, many = (counted(work, turns, environment) for turns in TURNS)
    return round((many - few) / (TURNS[1] - TURNS[0])) - OWN


def is_good(work, limit, environment):
    """Counts the instructions of a row and prints it. Returns whether its limit holds."""
    over = of_call(work, environment)
    note = "" if over <= limit else ", missed"
    print(f"| `{work}` | {of_call(work)} | {over} | {limit}{note} |", flush=True)
    return over <= limit


def prepare():
    """Builds the program, if its instructions can be counted."""
    if shutil.which("valgrind") is not None:
        speed.prepare_ada()


def instructions(words):
    """Counts the instructions of all rows, prints the table, and returns the status. The words may name a runtime folder."""
    if shutil.which("valgrind") is None:
        print("the instructions of calls aren't counted: there is no valgrind")
        return 0
    runtime = ada_programs.runtime_named(words)
    ada_programs.check_is_over(programs.OUT / "speed", runtime)
    print("| call | GNAT | over pobj | limit |\n|---|---|---|---|")
    good = [is_good(work, limit, programs.over(runtime)) for work, limit in limits().items()]
    return 0 if all(good) else 1
