# SPDX-License-Identifier: MIT
"""Compares scripts on the protected unit of an Ada text, and prints the results."""

import itertools
import pathlib
import re

import programs
import report
import text_numbers
import text_random
import texts

EXAMPLES = programs.TOP / "examples" / "ada"
FAULT, REFUSED, NO_RT = 1, 2, 6


class NoRunner(Exception):
    """This pobj can't run scripts on texts."""


class Refused(Exception):
    """Pobj finds a fault in the script or in the text. The message is its own."""


def tried(script):
    """Returns what a trial of pobj's sources wrote."""
    if programs.tried[script] is None:
        raise Refused("the trial ended with status 1")
    return programs.tried[script]


def of_pobj(file, script):
    """Returns what pobj writes."""
    if script in programs.tried:
        return tried(script)
    ended = programs.run([programs.POBJ, "run", "--unit", str(file)], script)
    if ended.returncode == REFUSED:
        raise NoRunner
    if ended.returncode == NO_RT:
        raise programs.Missing("pobj isn't built, and the command rt isn't found: see \"Limits and the kit\" in README.md")
    if ended.returncode == FAULT:
        raise Refused(ended.stderr.strip())
    if ended.returncode != 0:
        raise programs.Failed(f"{programs.POBJ} ended with status {ended.returncode} on this script:\n{script}\n{ended.stderr}")
    return ended.stdout


def agree(one, other):
    """Returns whether a line of pobj and one of GNAT say the same. GNAT can't say how a call ended whose task was aborted."""
    known = re.fullmatch(r"([0-9]+) \?", other or "")
    return one == other or known is not None and re.match(rf"{known[1]} (done|raised)\b", one or "") is not None


def as_known(ours, theirs):
    """Returns our lines, and the same line for each of theirs that agrees with it."""
    pairs = itertools.zip_longest(ours, theirs)
    return ours, [one if agree(one, other) else other for one, other in pairs if other is not None]


def answers(text, script, ours):
    """Returns our lines and GNAT's, with GNAT's numbers of calls. GNAT is tried again with longer steps of time until the lines
    agree."""
    script, ours = text_numbers.as_gnat(script, ours)
    theirs = None
    for step in programs.STEPS:
        written = texts.of_gnat(text, script, step)
        if written is not None:
            ours, theirs = as_known(ours, written)
            if theirs == ours:
                break
    if theirs is None:
        raise programs.Failed(f"this machine is too slow for the script:\n{script}")
    return ours, theirs


def stored(file):
    """Returns the answer that is kept beside the script."""
    return programs.comparable(file.with_suffix(".out").read_text())


def print_first_difference(ours, theirs):
    """Prints the first lines that differ between a stored answer and GNAT's."""
    for number, (one, other) in enumerate(itertools.zip_longest(ours, theirs, fillvalue="nothing"), 1):
        if one != other:
            print(f"line {number}", f"  stored: {one}", f"  GNAT:   {other}", sep="\n")
            return


def compare_stored(text, file):
    """Compares the stored answer with GNAT's, or writes GNAT's if none is stored. Returns the status."""
    if not file.with_suffix(".out").exists():
        print(*answers(text, programs.text_of(file), [])[1], sep="\n")
        raise programs.Missing(f"this pobj can't run texts, and there is no {file.with_suffix('.out')}: these are GNAT's answers")
    ours, theirs = answers(text, programs.text_of(file), stored(file))
    if ours == theirs:
        print("same as the stored answer")
        return 0
    print_first_difference(ours, theirs)
    return 1


def compare(text, script):
    """Compares pobj's answers with GNAT's, and the queues after each command. Returns the status."""
    shown = programs.shown(script)
    try:
        written = of_pobj(text.file, shown)
    except Refused as why:
        print(f"pobj finds a fault, and GNAT's program doesn't:\n{why}")
        return 1
    ours, theirs = answers(text, shown, programs.comparable(written))
    if ours == theirs:
        print("same")
        return 0
    report.print_first_difference(script, ours, theirs)
    return 1


def compare_fault(text, script, fault):
    """Says that GNAT's program can't carry out the script because of this fault. Returns the status: pobj has to find a fault too."""
    try:
        of_pobj(text.file, script)
        print(f"pobj carries out the script, which has a fault for GNAT's program: {fault}")
        return 1
    except (Refused, NoRunner):
        print(f"not expressible: a fault of the script itself: {fault}")
    return 0


def one_script(file, text_file):
    """Compares one script, and returns the status."""
    script = programs.text_of(file)
    text, found = texts.build(text_file, texts.wanted(script)), None
    try:
        texts.Translation(text, script).text()
    except texts.Fault as fault:
        found = fault
    except texts.NotExpressible as why:
        print(f"not expressible: {why}")
        return 0
    programs.try_scripts([script, programs.shown(script)], [text_file] * 2)
    try:
        return compare(text, script) if found is None else compare_fault(text, script, found)
    except NoRunner:
        return compare_stored(text, file)


def judged(file):
    """Compares the stored answer of a script in examples/ada with GNAT's. Returns the result in words, and whether it is good."""
    script = programs.text_of(file)
    try:
        ours, theirs = answers(texts.build(file.with_suffix(".adb"), texts.wanted(script)), script, stored(file))
    except texts.NotExpressible as why:
        return f"not expressible: {why}", True
    except texts.Fault as fault:
        return f"HAS A FAULT: {fault}", False
    return ("same", True) if ours == theirs else ("DIFFERS", False)


def all_texts():
    """Prints the table of the scripts in examples/ada, and returns the status."""
    files, good = report.scripts_in(EXAMPLES), True
    width = max(len(file.stem) for file in files)
    print(f"{'text':<{width}} GNAT's answers and the stored ones")
    for file in files:
        result, is_good = judged(file)
        good = good and is_good
        print(f"{file.stem:<{width}} {result}", flush=True)
    return 0 if good else 1


def random_ones(seed, count, text_file):
    """Compares random scripts, and returns the status. The first one that differs is kept as a file."""
    text, agreed, first = texts.build(text_file), 0, None
    scripts = [text_random.script(text, seed, place, programs.runtime is None) for place in range(count)]
    programs.try_scripts([programs.shown(script) for script in scripts], [text_file] * count)
    for place, script in enumerate(scripts):
        shown = programs.shown(script)
        try:
            written = of_pobj(text_file, shown)
        except NoRunner as none:
            raise programs.Missing("this pobj can't run texts") from none
        except Refused as why:
            written = f"pobj finds a fault: {why}"
        ours, theirs = answers(text, shown, programs.comparable(written))
        if ours == theirs:
            agreed += 1
        elif first is None:
            first = place, script, ours, theirs
    print(f"{agreed} of {count} random scripts agree (seed {seed})")
    if first is None:
        return 0
    place, script, ours, theirs = first
    kept = programs.OUT / f"random_{text_file.stem}_{seed}_{place}.pobj"
    kept.write_text(script)
    print(f"the first that doesn't: ./compare script {kept.relative_to(programs.TOP)} --unit {text_file}")
    report.print_first_difference(script, ours, theirs)
    return 1
