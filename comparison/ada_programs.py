# SPDX-License-Identifier: MIT
"""The Ada programs of comparison/programs/: what each writes by plain GNAT and over the engine, and what the standard says
that it writes."""

import collections
import concurrent.futures
import dataclasses
import itertools
import os
import shutil
import subprocess
import time

import programs

FOLDER = programs.HERE / "programs"
# The folders for what gnatmake builds: with GNAT's shared runtime, and with the static one of a runtime folder.
SHARED = programs.OUT / "shared"
STATIC = programs.OUT / "static"
# The folder that `./pobj ada` fills if no other is named.
RUNTIME = programs.OUT / "ada"
LIBRARY = "adalib/libgnarl-12.so"
# How long a program may take, in seconds: by plain GNAT, on which several hang, and over the engine.
PLAIN_LIMIT = 6
OVER_LIMIT = 60
# The programs that `stress` runs over and over, and on how many processors.
STRESSED = ("stress", "delays_alone")
PROCESSORS = (2, 4)
# How many programs are built at once.
AT_A_TIME = 2


@dataclasses.dataclass
class Ended:
    """The result of a run: its lines, and whether it was ended because it took too long."""
    lines: list
    hangs: bool


def made_runtime():
    """Has `./pobj ada` make a runtime folder, and returns it."""
    made = subprocess.run([programs.POBJ, "ada", str(RUNTIME)], stdin=subprocess.DEVNULL, stdout=subprocess.DEVNULL)
    if made.returncode != 0:
        raise programs.Failed(f"{programs.POBJ} ada ended with status {made.returncode}")
    return programs.runtime_at(RUNTIME)


def names():
    """Returns the names of the programs."""
    return sorted(file.stem for file in FOLDER.glob("*.adb"))


def stated(name, suffix=".out"):
    """Returns the lines of the file beside a program, or None if there is none."""
    file = FOLDER / f"{name}{suffix}"
    return file.read_text().splitlines() if file.exists() else None


def build(name, folder, runtime=None):
    """Builds a program in the folder: for GNAT's shared runtime, or with the static one of a runtime folder."""
    if shutil.which("gnatmake") is None:
        raise programs.Missing("there is no gnatmake; install it with: sudo apt-get install gnat")
    folder.mkdir(parents=True, exist_ok=True)
    # It is compiled and linked each time, since the runtime may have changed.
    (folder / name).unlink(missing_ok=True)
    which = ["-bargs", "-shared"] if runtime is None else [f"--RTS={runtime}", "-bargs", "-static"]
    words = ["gnatmake", "-q", "-f", "-gnat2022", "-gnatws", "-O1", str(FOLDER / f"{name}.adb"), *which]
    built = subprocess.run(words, cwd=folder, capture_output=True, text=True)
    if built.returncode != 0:
        raise programs.Failed(f"gnatmake can't build {name}:\n{built.stderr}")


def build_all(wanted, runtime):
    """Builds the programs for both ways of use."""
    orders = [(name, SHARED, None) for name in wanted] + [(name, STATIC, runtime) for name in wanted]
    with concurrent.futures.ThreadPoolExecutor(AT_A_TIME) as pool:
        list(pool.map(lambda order: build(*order), orders))


def check_is_over(program, runtime):
    """Raises Failed if the program wouldn't run on the runtime of the folder."""
    words = {"LD_TRACE_LOADED_OBJECTS": "1", **programs.over(runtime)}
    loaded = subprocess.run([str(program)], env={**os.environ, **words}, capture_output=True, text=True).stdout
    if str(runtime / LIBRARY) not in loaded:
        raise programs.Failed(f"{program} doesn't load {runtime / LIBRARY}:\n{loaded}")


def text_of(written):
    """Returns what a program wrote as text. `written` is None if the program was ended before it wrote anything."""
    return written.decode(errors="replace") if isinstance(written, bytes) else written or ""


def run(program, limit, environment=None, processors=None):
    """Runs the program and returns the result. If it didn't end well, a last line says how it ended."""
    words = ["stdbuf", "-oL", str(program)]
    if processors is not None:
        words = ["taskset", "-c", ",".join(str(number) for number in processors), *words]
    try:
        ended = subprocess.run(words, stdin=subprocess.DEVNULL, capture_output=True, timeout=limit,
                               env={**os.environ, **(environment or {})})
    except subprocess.TimeoutExpired as late:
        return Ended([*text_of(late.stdout).splitlines(), "(hangs)"], True)
    lines = text_of(ended.stdout).splitlines()
    if ended.returncode != 0:
        lines += [*text_of(ended.stderr).splitlines()[:2], f"(status {ended.returncode})"]
    return Ended(lines, False)


def of_plain(name, ended):
    """Returns the result of a program by plain GNAT, in words."""
    is_explained = stated(name, ".why") is not None
    if ended.lines == stated(name):
        return "same this time" if is_explained else "same"
    what = "hangs" if ended.hangs else "differs"
    return f"{what}, explained" if is_explained else f"{what.upper()}, unexplained"


def of_engine(name, ended):
    """Returns the result of a program over the engine, in words, and whether it is good."""
    if ended.lines == stated(name):
        return "same", True
    return "HANGS" if ended.hangs else "DIFFERS", False


def print_row(name, *cells):
    """Prints a row of the table of all programs."""
    width = max(len(each) for each in names())
    row = "  ".join(f"{cell:<{wide}}" for cell, wide in zip((name, *cells), (width, 8, 20, 13, 14)))
    print(row.rstrip(), flush=True)


def print_beside(columns):
    """Prints the lines of several outputs side by side, each under its title."""
    rows = [list(columns), *itertools.zip_longest(*columns.values(), fillvalue="")]
    widths = [max(len(row[place]) for row in rows) for place in range(len(columns))]
    for row in rows:
        print("    " + " | ".join(f"{cell:<{width}}" for cell, width in zip(row, widths)).rstrip())


def print_outputs(name, outputs):
    """Prints the outputs of a program beside what the standard says, if one of them differs."""
    columns = {"the standard": stated(name)}
    for title, ended in outputs.items():
        if title == "linked with it" and ended.lines == outputs["over pobj"].lines:
            continue
        columns[title] = ended.lines
    if any(lines != columns["the standard"] for lines in columns.values()):
        print_beside(columns)


def judged(name, runtime):
    """Runs a program and prints the results. Returns whether plain GNAT writes what the standard says, and whether the engine
    does."""
    outputs = {
        "plain GNAT": run(SHARED / name, PLAIN_LIMIT),
        "over pobj": run(SHARED / name, OVER_LIMIT, programs.over(runtime)),
        "linked with it": run(STATIC / name, OVER_LIMIT),
    }
    plain = of_plain(name, outputs["plain GNAT"])
    shared, linked = (of_engine(name, outputs[title]) for title in ("over pobj", "linked with it"))
    lines = f"{len(stated(name))} lines"
    print_row(name, lines, plain, shared[0], linked[0])
    print_outputs(name, outputs)
    return plain.startswith("same"), shared[1] and linked[1]


def all_programs(runtime):
    """Compares all programs, prints them in a table, and returns the status."""
    build_all(names(), runtime)
    check_is_over(SHARED / names()[0], runtime)
    print_row("program", "standard", "plain GNAT", "over pobj", "linked with it")
    verdicts = [judged(name, runtime) for name in names()]
    faults = sum(not plain for plain, _ in verdicts)
    wrong = [name for name, (_, engine) in zip(names(), verdicts) if not engine]
    print(f"{len(verdicts)} programs; plain GNAT differs in {faults}: comparison/programs/NAME.why says why")
    print(f"over pobj these differ: {', '.join(wrong)}" if wrong else "over pobj none differs")
    return 1 if wrong else 0


def stress_once(name, runtime, processors):
    """Returns the lines of a run over the engine."""
    return tuple(run(SHARED / name, OVER_LIMIT, programs.over(runtime), processors).lines)


def stress_program(name, count, runtime, processors):
    """Runs a program over and over on these processors, prints the results, and returns whether each run was good."""
    since = time.monotonic()
    came = collections.Counter(stress_once(name, runtime, processors) for _ in range(count))
    good = came.pop(tuple(stated(name)), 0)
    seconds = time.monotonic() - since
    print(f"{name} on {len(processors)} processors: {good} of {count} runs as the standard says, in {seconds:.0f} seconds",
          flush=True)
    for lines, times in came.most_common():
        print(f"  {times} times: {'; '.join(lines)}")
    return good == count


def stress(count, runtime):
    """Runs the stressed programs over and over, on two processors and on four, and returns the status."""
    for name in STRESSED:
        build(name, SHARED)
        check_is_over(SHARED / name, runtime)
    there = sorted(os.sched_getaffinity(0))
    good = True
    for number in PROCESSORS:
        if number > len(there):
            print(f"on {number} processors: left out, as there are {len(there)}")
            continue
        for name in STRESSED:
            good = stress_program(name, count, runtime, there[:number]) and good
    return 0 if good else 1


def runtime_named(words):
    """Returns the runtime folder that the words name, or makes one if they name none."""
    return programs.runtime_at(words[0]) if words else made_runtime()


def work_of(words):
    """Returns what the words after `ada` ask for, or None if they are refused."""
    match words:
        case [] | ["stress"]:
            work = all_programs if not words else lambda runtime: stress(200, runtime)
            return lambda: work(made_runtime())
        case ["stress", count, *folder] if count.isdigit() and len(folder) <= 1:
            return lambda: stress(int(count), runtime_named(folder))
        case [folder] if not folder.startswith("-"):
            return lambda: all_programs(programs.runtime_at(folder))
    return None
