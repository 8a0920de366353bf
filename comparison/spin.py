# SPDX-License-Identifier: MIT
"""How fast `pobj explore` and the model checker SPIN look at all situations of a scene, and whether they count the same. Each scene
has a model in spin/, whose states are the scene's situations."""

import dataclasses
import pathlib
import re
import shutil
import statistics
import subprocess
import tempfile
import time

import programs
import speed

FOLDER = programs.HERE / "spin"
# Says the most memory that a program takes: Debian's package `time`. Python can't: of a child, Linux says at least what Python takes.
TIME = "/usr/bin/time"
# The program that is measured. It runs without `./pobj`, which looks first whether a source is newer.
PROGRAM = programs.TOP / "crates/pobj_explore/out/pobj_explore"
# Says, as `./pobj` does, whether that is built from the sources as they are.
IS_BUILT = 'top=$1; . "$top/tools/crates.sh"; list_crates pobj_explore; is_fresh pobj_explore'
# How SPIN's verifiers are built, without partial order reduction and with it. Neither searches for cycles, as pobj doesn't.
FLAGS = ["-O2", "-DSAFETY"]
BUILDS = {"SPIN": ["-DNOREDUCE"], "reduced": []}
# At most this many moves in a row; a table of 2 to the power of 20 places, which takes 8 MB instead of 128; go on after an error; a call
# that waits at the end is one; no list of what isn't reached.
PAN = ["-m100000", "-w20", "-c0", "-q", "-n"]
SIDES = (*BUILDS, "pobj")
ROUNDS = 3
# How long a program may take, in seconds, and the status of `timeout` if it takes longer.
LIMIT, TOO_LONG = 600, 124


@dataclasses.dataclass(frozen=True)
class Pair:
    """A scene, its model, and what is defined in that."""

    scene: str
    model: str
    defined: tuple = ()

    def name(self):
        """Returns the name of the scene."""
        return pathlib.Path(self.scene).stem

    def words(self):
        """Returns the words by which SPIN makes a verifier of the model."""
        return ["spin", "-a", *(f"-D{name}={number}" for name, number in self.defined), str(FOLDER / f"{self.model}.pml")]


def of_buffer(scene, callers, calls, capacity):
    """Returns the pair of a scene of a buffer with this many producers and as many consumers."""
    names = ("PRODUCERS", "CONSUMERS", "CALLS", "CAPACITY")
    return Pair(scene, "buffer", tuple(zip(names, (callers, callers, calls, capacity))))


PAIRS = (
    Pair("examples/scenes/forks.scene", "forks"),
    Pair("examples/scenes/footman.scene", "footman"),
    of_buffer("examples/scenes/buffer.scene", 2, 3, 2),
    of_buffer("comparison/spin/six_by_three.scene", 3, 3, 2),
    of_buffer("comparison/spin/four_by_ten.scene", 2, 10, 4),
    of_buffer("comparison/spin/six_by_five.scene", 3, 5, 2),
)


@dataclasses.dataclass(frozen=True)
class Counts:
    """What a search found: how many situations, how many moves in them, and whether callers wait for ever."""

    situations: int
    moves: int
    hangs: bool

    def __str__(self):
        """Says it in words."""
        return f"{self.situations:,} situations, {self.moves:,} moves, {'a' if self.hangs else 'no'} hang"


@dataclasses.dataclass(frozen=True)
class Run:
    """What a search found, the seconds that it took, and the most memory, in MB."""

    counts: Counts
    seconds: float
    megabytes: float


def counts_of_pan(said):
    """Returns what a verifier of SPIN found. One of its transitions is the state before the first command."""
    found = [re.search(pattern, said) for pattern in (r"([0-9.e+]+) states, stored", r"([0-9.e+]+) transitions", r"errors: ([0-9]+)")]
    if None in found or "max search depth too small" in said or "Search not completed" in said:
        raise programs.Failed(f"SPIN's verifier didn't look at all states:\n{said}")
    states, transitions, errors = (int(float(one[1])) for one in found)
    if set(re.findall(r"^pan:[0-9]+: (.*) \(at depth", said, re.MULTILINE)) - {"invalid end state"}:
        raise programs.Failed(f"SPIN's verifier found another error than an invalid end state:\n{said}")
    return Counts(states, transitions - 1, errors > 0)


def counts_of_explore(said):
    """Returns what `pobj explore` found."""
    found = re.search(r"^([0-9]+) situations, ([0-9]+) moves, .*: complete$", said, re.MULTILINE)
    if found is None:
        raise programs.Failed(f"pobj explore didn't look at all situations:\n{said}")
    return Counts(int(found[1]), int(found[2]), "callers wait for ever" in said)


def run(words, statuses, counts_of):
    """Runs a program, which has to end with one of these statuses, and returns what it found, its time and its memory."""
    around = [TIME, "-q", "-f", "%M", "timeout", "--foreground", str(LIMIT)]
    since = time.monotonic()
    ended = subprocess.run([*around, *words], cwd=programs.TOP, capture_output=True, text=True)
    seconds = time.monotonic() - since
    if ended.returncode == TOO_LONG:
        raise programs.Failed(f"{' '.join(words)} took more than {LIMIT} seconds")
    if ended.returncode not in statuses:
        raise programs.Failed(f"{' '.join(words)} ended with status {ended.returncode}:\n{ended.stdout}{ended.stderr}")
    return Run(counts_of(ended.stdout), seconds, int(ended.stderr.split()[-1]) * 1024 / 1e6)


def run_side(side, pair, folder):
    """Runs the program of this side on a pair, and returns what it found, its time and its memory."""
    if side == "pobj":
        return run([str(PROGRAM), "explore", "--apart", pair.scene], (0, 3), counts_of_explore)
    return run([str(folder / pair.name() / side), *PAN], (0,), counts_of_pan)


def make(words, folder):
    """Runs a program that makes files in the folder."""
    made = subprocess.run(words, cwd=folder, capture_output=True, text=True)
    if made.returncode != 0:
        raise programs.Failed(f"{' '.join(words)} ended with status {made.returncode}:\n{made.stdout}{made.stderr}")


def build(pair, folder):
    """Builds the verifiers of the pair's model, in a folder of their own."""
    (folder / pair.name()).mkdir()
    make(pair.words(), folder / pair.name())
    for side, words in BUILDS.items():
        make(["gcc", *FLAGS, *words, "-o", side, "pan.c"], folder / pair.name())


def measure(folder):
    """Has all sides look at all scenes in turn, and returns the runs."""
    runs = {pair.name(): {side: [] for side in SIDES} for pair in PAIRS}
    for _ in range(ROUNDS):
        for pair in PAIRS:
            for side in SIDES:
                runs[pair.name()][side].append(run_side(side, pair, folder))
    return runs


def medians(runs):
    """Returns a run with the median time and memory of these, and the counts of the first."""
    times, sizes = ([getattr(one, name) for one in runs] for name in ("seconds", "megabytes"))
    return Run(runs[0].counts, statistics.median(times), statistics.median(sizes))


def rate(one):
    """Returns how many situations a second the run looked at."""
    return one.counts.situations / one.seconds


def line(name, sides):
    """Returns the table's line of a scene, by the median run of each side."""
    counts, runs = sides["SPIN"].counts, [sides[side] for side in SIDES]
    cells = [
        name,
        "found" if counts.hangs else "none",
        f"{counts.situations:,}",
        f"{counts.moves:,}",
        ", ".join(f"{one.seconds:.3f}" for one in runs),
        ", ".join(f"{rate(one) / 1000:.0f}" for one in runs),
        ", ".join(f"{one.megabytes:.0f}" for one in runs),
        f"{rate(sides['pobj']) / rate(sides['SPIN']):.2f}",
    ]
    return f"| {' | '.join(cells)} |"


def table(rows):
    """Returns the table of all scenes, by the median runs of each."""
    sides = ", ".join(SIDES)
    titles = ("scene", "hang", "situations", "moves", f"seconds: {sides}", "thousands of situations a second", "MB", "pobj to SPIN")
    return [f"| {' | '.join(titles)} |", "|---" * len(titles) + "|", *(line(name, row) for name, row in rows.items())]


def agree(ours, theirs, is_reduced):
    """Returns whether two searches found the same: with reduction, fewer situations and moves are enough."""
    if is_reduced:
        return ours.hangs == theirs.hangs and ours.situations <= theirs.situations and ours.moves <= theirs.moves
    return ours == theirs


def differences(rows):
    """Returns a line for each search that doesn't find the same as SPIN without reduction."""
    lines = []
    for name, sides in rows.items():
        for side in ("reduced", "pobj"):
            if not agree(sides[side].counts, sides["SPIN"].counts, side == "reduced"):
                lines.append(f"{name}: SPIN finds {sides['SPIN'].counts}; {side} finds {sides[side].counts}")
    return lines


def reduction(rows):
    """Returns a sentence on what partial order reduction leaves out."""
    left = [f"{name} {sides['reduced'].counts.situations:,}" for name, sides in rows.items()
            if sides["reduced"].counts.situations < sides["SPIN"].counts.situations]
    return f"Partial order reduction leaves, of situations: {', '.join(left)}." if left else "Partial order reduction leaves out nothing."


def prepare():
    """Makes sure that all programs are there."""
    for name in ("spin", "gcc"):
        if shutil.which(name) is None:
            raise programs.Missing(f"there is no {name}; install it with: sudo apt-get install {name}")
    if not pathlib.Path(TIME).exists():
        raise programs.Missing(f"there is no {TIME}; install it with: sudo apt-get install time")
    if subprocess.run(["bash", "-c", IS_BUILT, "bash", str(programs.TOP)]).returncode != 0:
        raise programs.Missing("pobj_explore isn't built from the sources as they are, and a trial of them is no measurement; "
                               "'./pobj build explore' proves and builds it")


def compare():
    """Measures everything, prints the table, and returns the status."""
    with tempfile.TemporaryDirectory() as name:
        folder = pathlib.Path(name)
        for pair in PAIRS:
            build(pair, folder)
        runs = speed.with_others(measure, folder)
    rows = {name: {side: medians(found) for side, found in sides.items()} for name, sides in runs.items()}
    print("SPIN without partial order reduction, SPIN with it (reduced), and pobj explore: medians of three rounds, with each program's")
    print("start, and the most memory that each had at once. The ratio is that of situations a second.")
    print(*table(rows), reduction(rows), *differences(rows), sep="\n")
    return 1 if differences(rows) else 0
