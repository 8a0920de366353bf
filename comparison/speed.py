# SPDX-License-Identifier: MIT
"""How fast the same work is with both objects of pobj, the recorded and the bounded one, and with GNAT; how fast an Ada
program is by plain GNAT and over the engine; and how fast the library for C is beside the mutexes of POSIX."""

import json
import os
import pathlib
import statistics
import subprocess
import time

import ada_programs
import programs

# The work of each row, how many threads do it, and how often each thread does it.
ROWS = (
    ("procedure", 1, 20_000),
    ("function", 1, 20_000),
    ("entry", 1, 20_000),
    ("function", 4, 20_000),
    ("buffer", 2, 20_000),
    ("buffer", 4, 20_000),
    ("buffer", 8, 20_000),
    ("allocator", 4, 10_000),
    ("meeting", 3, 5_000),
    ("meeting", 4, 5_000),
)
ROUNDS = 15
# The same for the Ada program by plain GNAT and over the engine, and on how many processors; None means on all.
ADA_ROWS = (
    ("procedure", 1, 400_000, None),
    ("function", 1, 400_000, None),
    ("entry", 1, 200_000, None),
    ("conditional", 1, 200_000, None),
    ("buffer", 2, 40_000, None),
    ("buffer", 4, 20_000, None),
    ("buffer", 8, 10_000, None),
    ("buffer", 4, 20_000, 1),
    ("allocator", 4, 20_000, None),
    ("allocator", 4, 20_000, 1),
    ("meeting", 3, 10_000, None),
    ("meeting", 4, 10_000, None),
)
ADA_ROUNDS = 9
# The objects, and the prefix of the word for the work that has the program use each.
PREFIXES = {"recorded": "", "bounded": "bounded-", "gnat": ""}
OURS = ("recorded", "bounded")
PROGRAM = programs.TOP / "crates/bench_calls/out/bench_calls"
# The folder that `./pobj c` fills, and the program that measures the library.
LIBRARY = programs.OUT / "library"
FROM_C = programs.OUT / "from_c"
# The numbers of the last run, by row and program: calls a second, of each round.
NUMBERS = programs.OUT / "speed.json"


def is_current():
    """Returns whether pobj's program is there, and no source of a crate is newer."""
    if not PROGRAM.exists():
        return False
    built = PROGRAM.stat().st_mtime
    sources = (programs.TOP / "crates").glob("*/src/**/*.rt")
    return all(source.stat().st_mtime <= built for source in sources)


def prepare_from_c():
    """Builds the library for C, and the program that measures it."""
    words = [str(programs.TOP / "pobj"), "c", str(LIBRARY)]
    if subprocess.run(words, stdin=subprocess.DEVNULL, stdout=subprocess.DEVNULL).returncode != 0:
        raise programs.Failed("the library for C can't be built")
    source = programs.TOP / "bindings/c/speed.c"
    flags = ["-std=c11", "-O2", f"-I{LIBRARY}/include", f"-L{LIBRARY}/lib", "-o", str(FROM_C)]
    built = subprocess.run(["gcc", *flags, str(source), "-lpobj", "-lpthread"], capture_output=True, text=True)
    if built.returncode != 0:
        raise programs.Failed(f"gcc can't build {source}:\n{built.stderr}")


def prepare():
    """Builds all programs; pobj's own only if it isn't there or is old."""
    prepare_ada()
    prepare_from_c()
    if is_current():
        return
    programs.say("bench_calls is built first, which takes minutes")
    built = subprocess.run(["rt", "run", "--", "small"], cwd=PROGRAM.parent.parent, capture_output=True, text=True)
    if built.returncode != 0:
        raise programs.Failed(f"bench_calls can't be built:\n{built.stdout[-2000:]}{built.stderr[-2000:]}")


def prepare_ada():
    """Builds the Ada program."""
    programs.build("speed", "-O2")


def words_of(name):
    """Returns the words that call the program for the object of this name."""
    return [str(PROGRAM), "row"] if name in OURS else [str(programs.OUT / "speed")]


def calls_a_second(program, work, threads, turns, environment=None):
    """Returns how often a second the threads of the program do the work, if each does it `turns` times."""
    words = [*program, work, str(threads), str(turns)]
    ended = programs.run(words, "", environment=environment)
    answer = ended.stdout.split()
    if ended.returncode != 0 or answer[:3] != [work, str(threads), str(threads * turns)]:
        raise programs.Failed(f"{' '.join(words)} ended with status {ended.returncode}: {ended.stdout}{ended.stderr}")
    return threads * turns * 1e9 / int(answer[3])


def measure():
    """Measures all rows in turns, and returns the numbers."""
    numbers = {f"{work}/{threads}": {name: [] for name in PREFIXES} for work, threads, _ in ROWS}
    for _ in range(ROUNDS):
        for work, threads, turns in ROWS:
            for name in PREFIXES:
                took = calls_a_second(words_of(name), PREFIXES[name] + work, threads, turns)
                numbers[f"{work}/{threads}"][name].append(took)
    return numbers


def millions(rounds):
    """Returns the median of the rounds in millions, with the lowest and the highest."""
    return f"{statistics.median(rounds) / 1e6:.2f} ({min(rounds) / 1e6:.2f} to {max(rounds) / 1e6:.2f})"


def ratios(ours, theirs):
    """Returns the ratio of the medians, and that of the means."""
    median = statistics.median(ours) / statistics.median(theirs)
    return f"{median:.2f} ({statistics.mean(ours) / statistics.mean(theirs):.2f})"


def line(name, row):
    """Returns the line of a row."""
    cells = [millions(row[name]) for name in PREFIXES] + [ratios(row[name], row["gnat"]) for name in OURS]
    return f"| `{name}` | {' | '.join(cells)} |"


def busy():
    """Returns for how many seconds all processors have been busy so far, and for how many the programs run here have."""
    ticks = [int(word) for word in pathlib.Path("/proc/stat").read_text().splitlines()[0].split()[1:]]
    own = os.times()
    idle = ticks[3] + ticks[4]
    return (sum(ticks[:8]) - idle) / os.sysconf("SC_CLK_TCK"), sum(own[:4])


def with_others(measuring, *words):
    """Measures, prints how many processors other work kept busy meanwhile, and returns the numbers."""
    before, since = busy(), time.monotonic()
    numbers = measuring(*words)
    after, seconds = busy(), time.monotonic() - since
    others = (after[0] - before[0]) - (after[1] - before[1])
    print(f"Other work kept {max(others, 0) / seconds:.1f} processors busy. The numbers mean little if that is much.")
    return numbers


def on_processors(number):
    """Returns the words before a program that make it run on this number of processors; None means on all."""
    there = sorted(os.sched_getaffinity(0))
    return [] if number is None else ["taskset", "-c", ",".join(str(place) for place in there[:number])]


def named(work, threads, number):
    """Returns the name of a row of the Ada program."""
    return f"{work}/{threads}" + ("" if number is None else f" on {number} processor")


def measure_ada(runtime):
    """Measures the Ada program by plain GNAT and over the engine in turns, and returns the numbers."""
    sides = {"GNAT": None, "over": programs.over(runtime)}
    numbers = {named(row[0], row[1], row[3]): {side: [] for side in sides} for row in ADA_ROWS}
    for _ in range(ADA_ROUNDS):
        for work, threads, turns, number in ADA_ROWS:
            program = [*on_processors(number), str(programs.OUT / "speed")]
            for side, environment in sides.items():
                took = calls_a_second(program, work, threads, turns, environment)
                numbers[named(work, threads, number)][side].append(took)
    return numbers


def over_engine(runtime):
    """Measures the Ada program by plain GNAT and over the engine, prints the table, and returns the status."""
    ada_programs.check_is_over(programs.OUT / "speed", runtime)
    numbers = with_others(measure_ada, runtime)
    print("One Ada program, by plain GNAT and over the engine. Millions of calls a second: the median of nine rounds, with")
    print("the lowest and the highest. The ratio is that of the medians, with that of the means in parentheses.")
    print("| work/tasks | GNAT | GNAT over pobj | over pobj to GNAT |\n|---|---|---|---|")
    for name, row in numbers.items():
        print(f"| `{name}` | {millions(row['GNAT'])} | {millions(row['over'])} | {ratios(row['over'], row['GNAT'])} |")
    return 0


def runtime_if_there(words):
    """Returns the runtime folder that the words name, or the one that `./pobj ada` made, or None if there is neither."""
    if words:
        return programs.runtime_at(words[0])
    return ada_programs.RUNTIME if programs.is_runtime(ada_programs.RUNTIME) else None


def speed(words):
    """Measures everything, prints the tables, and returns the status. The words may name a runtime folder."""
    runtime = runtime_if_there(words)
    numbers = with_others(measure)
    NUMBERS.write_text(json.dumps(numbers))
    print("Millions of calls a second: the median of the rounds, with the lowest and the highest. The ratios are to GNAT: of")
    print("the medians, with those of the means in parentheses.")
    print("| work/threads | recorded | bounded | GNAT | recorded to GNAT | bounded to GNAT |\n|---|---|---|---|---|---|")
    for name, row in numbers.items():
        print(line(name, row))
    if runtime is not None:
        over_engine(runtime)
    else:
        folder = ada_programs.RUNTIME.relative_to(programs.TOP)
        print(f"The rows of Ada over the engine are left out: there is no {folder}, which `./pobj ada {folder}` makes.")
    print("From C, beside the mutexes of POSIX: the median of nine rounds.")
    print(programs.run([str(FROM_C)], "").stdout, end="")
    return 0
