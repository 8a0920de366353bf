# SPDX-License-Identifier: MIT
"""Runs the tests of ACATS, Ada's conformity assessment, by plain GNAT and over the engine of pobj in both ways of use."""

import collections
import concurrent.futures
import os
import shutil
import subprocess

import acats_build
import acats_source
import acats_tests
import programs

# The ways to run a test: with GNAT's shared libraries, the same program with those of a runtime folder, and a program linked
# with the static ones of that folder.
PLAIN, SHARED, STATIC = "plain", "shared", "static"
# How long one test may run, in seconds.
LIMIT = 60
# How many tests are compiled and run at once.
AT_A_TIME = len(os.sched_getaffinity(0))
# The first characters of a line say how the test ended. A tentative result has a second such line.
LENGTH = 4
FAILED = "FAILED"
SAID = {"****": FAILED, "!!!!": "TENTATIVE", "++++": "NOT APPLICABLE", "====": "PASSED"}
GOOD = {"PASSED", "NOT APPLICABLE", "TENTATIVE"}
# How often a test that says that it has failed is run: in some tests tasks race each other.
RUNS = 3
# The folder for what each test wrote in each way.
WRITTEN = acats_source.OUT / "written"
# The widths of the first two columns, and of the others.
FIRST, OTHER = (10, 11), 20


def result_of(text, status):
    """Returns what a test says of itself, with the status of its program if that isn't 0."""
    begun = {line[:LENGTH] for line in text.splitlines()}
    result = next((word for mark, word in SAID.items() if mark in begun), "SAYS NOTHING")
    return result if status == 0 else f"{result}, status {status}"


def surroundings(library):
    """Returns the environment with which a program takes GNAT's libraries from the folder, or for None from their own place."""
    names = {name: value for name, value in os.environ.items() if name != "LD_LIBRARY_PATH"}
    return names if library is None else {**names, "LD_LIBRARY_PATH": str(library)}


def run_once(program, library):
    """Runs a test once. Returns what it says of itself, and all that it wrote."""
    try:
        ended = subprocess.run(
            [str(program)], cwd=program.parent, env=surroundings(library), timeout=LIMIT, stdin=subprocess.DEVNULL,
            stdout=subprocess.PIPE, stderr=subprocess.STDOUT, text=True, errors="replace",
        )
    except subprocess.TimeoutExpired as late:
        return f"HANGS ({LIMIT} s)", (late.stdout or b"").decode(errors="replace")
    return result_of(ended.stdout, ended.returncode), ended.stdout


def run(program, library=None):
    """Does the same, but runs a test again if it says that it has failed; not if it hangs or says nothing."""
    said, text = run_once(program, library)
    for place in range(2, RUNS + 1):
        if said != FAILED:
            break
        said, again = run_once(program, library)
        text += again
        said = f"{said} (run {place})" if said in GOOD else said
    return said, text


def run_over(program, library):
    """Does the same with the libraries of the folder, if the program loads its tasking from there."""
    asked = subprocess.run(["ldd", str(program)], env=surroundings(library), capture_output=True, text=True)
    lines = [line for line in asked.stdout.splitlines() if "libgnarl" in line]
    if lines and all(f"=> {library}/" in line for line in lines):
        return run(program, library)
    return "NOT OVER DEST", asked.stdout


class Tester:
    """Runs tests in each way."""

    def __init__(self, runtime):
        """Takes the runtime folder, or None for only plain GNAT."""
        self.ways = {PLAIN: (acats_build.Linking(PLAIN), run)}
        if runtime is not None:
            library = runtime / "adalib"
            self.ways[SHARED] = self.ways[PLAIN][0], lambda program: run_over(program, library)
            self.ways[STATIC] = acats_build.Linking(STATIC, runtime), run
        self.options = acats_source.options()

    def prepare(self):
        """Compiles the support of ACATS for each way to link, and removes what was written before."""
        for linking in dict.fromkeys(linking for linking, _ in self.ways.values()):
            linking.prepare()
        shutil.rmtree(WRITTEN, ignore_errors=True)
        WRITTEN.mkdir(parents=True)

    def results(self, test):
        """Returns what a test says, run in each way."""
        name, _, paths = test
        said, programs_of = {}, {}
        for way, (linking, carry_out) in self.ways.items():
            if linking not in programs_of:
                programs_of[linking] = linking.build(name, paths, self.options.get(name, []))
            program, text = programs_of[linking]
            said[way], text = ("CAN'T BE BUILT", text) if program is None else carry_out(program)
            (WRITTEN / f"{name}.{way}").write_text(text, errors="replace")
        for linking in programs_of:
            linking.remove(name)
        return said


def passes(word):
    """Returns whether a test that says this passes."""
    return word.split(" (")[0] in GOOD


def is_good(said):
    """Returns whether a test passes in each way, or fails by plain GNAT too."""
    return not passes(said[PLAIN]) or all(map(passes, said.values()))


def print_row(name, group, words):
    """Prints a row of the table."""
    cells = [f"{name:<{FIRST[0]}}{group:<{FIRST[1]}}", *(f"{word:<{OTHER}}" for word in words)]
    print("".join(cells).rstrip(), flush=True)


def print_sums(tests, answers):
    """Prints for each group and way how many tests said what."""
    for group, title in acats_tests.GROUPS.items():
        rows = [said for test, said in zip(tests, answers) if test[1] == group]
        if rows:
            print(f"\n{group}: {title}, {len(rows)} tests")
        for way in rows[0] if rows else ():
            counts = collections.Counter(said[way] for said in rows)
            print(f"  {way:<8}" + ", ".join(f"{count} {word}" for word, count in counts.most_common()))


def conclude(tests, answers, runtime):
    """Prints the conclusion in a line, and returns the status."""
    if not any(passes(said[PLAIN]) for said in answers):
        raise programs.Failed(f"no test passes by plain GNAT; see {WRITTEN.relative_to(programs.TOP)}/")
    written = f"what each wrote is in {WRITTEN.relative_to(programs.TOP)}/"
    bad = [test[0] for test, said in zip(tests, answers) if not is_good(said)]
    if runtime is None:
        print(f"\nno runtime folder was named: that was plain GNAT alone; {written}")
    elif bad:
        print(f"\nthese pass by plain GNAT, and not over the runtime folder: {' '.join(bad)}; {written}")
    else:
        print(f"\nall that pass by plain GNAT pass over the runtime folder too; {written}")
    return 1 if bad else 0


def prepare():
    """Raises Missing if there is no GNAT, and fetches the tests."""
    if shutil.which("gnatmake") is None:
        raise programs.Missing("there is no gnatmake; install it with: sudo apt-get install gnat")
    acats_source.fetch()


def acats(path, beginnings):
    """Runs the tests by plain GNAT, and over the runtime folder if a path is given. Returns the status."""
    runtime = None if path is None else programs.runtime_at(path)
    tests = acats_tests.picked(beginnings)
    if not tests:
        raise programs.Failed(f"no test of tasks begins with {' or '.join(beginnings)}")
    tester = Tester(runtime)
    tester.prepare()
    print_row("test", "group", tester.ways)
    answers = []
    with concurrent.futures.ThreadPoolExecutor(AT_A_TIME) as pool:
        for test, said in zip(tests, pool.map(tester.results, tests)):
            answers.append(said)
            print_row(test[0], test[1], said.values())
    print_sums(tests, answers)
    return conclude(tests, answers, runtime)
