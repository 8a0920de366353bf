# SPDX-License-Identifier: MIT
"""Picks the tests of ACATS that are run, by a rule and not by a list of names."""

import re

import acats_source

ENTRIES, PROTECTED, TASKS = "entries", "protected", "tasks"
# What the tests of each group use, in the order of the table.
GROUPS = {
    ENTRIES: "protected objects with entries (c9, c38, cb2)",
    PROTECTED: "protected objects without entries (c9, c38, cb2)",
    TASKS: "all else with tasks, selects, aborts, protected objects",
}
# The tests from which the first two groups are picked.
CHAPTERS = re.compile(r"c9|c38|cb2")
# The files of a test have its name of seven letters, and these endings.
ENDINGS = {".a", ".ada", ".am", ".dep", ".tst"}
NAME = 7
# What isn't code; a protected object or type, and the text of its specification; what else makes tasks meet.
NO_CODE = re.compile(r"""--[^\n]*|"(?:[^"\n]|"")*"|'[^\n]'""")
PROTECTED_UNIT = r"\bprotected\s+(?!body\b|procedure\b|function\b)(?:type\s+)?\w+"
ANY_PROTECTED = re.compile(PROTECTED_UNIT)
SPECIFICATION = re.compile(PROTECTED_UNIT + r"\s*(?:\(.*?\)\s*)?\bis\b(.*?)\bend\b", re.DOTALL)
TASKING = re.compile(r"\b(?:protected|task|select|abort)\b")
ENTRY = re.compile(r"\bentry\b")
WITH = re.compile(r"\bwith\s+([\w\s.,]+);")
UNIT = re.compile(r"\b(?:package|procedure|function)\s+(?:body\s+)?([\w.]+)")


def code_of(file):
    """Returns the text of a file in lower case, without comments and literals."""
    return NO_CODE.sub(" ", acats_source.text_of(file)).lower()


def files():
    """Returns the files of each test by its name, without the tests that GCC doesn't run."""
    left_out = set(acats_source.text_of(acats_source.SOURCE / "norun.lst").split())
    tests = {}
    for file in sorted((acats_source.SOURCE / "tests").glob("*/*")):
        if file.suffix in ENDINGS and file.name[:NAME] not in left_out:
            tests.setdefault(file.name[:NAME], []).append(file)
    return tests


def foundations():
    """Returns the code of ACATS's foundations by the name of a unit: what a test uses of it counts as its own."""
    units = {}
    for file in sorted((acats_source.SOURCE / "support").glob("f*.a")):
        code = code_of(file)
        units.update((name, code) for name in UNIT.findall(code))
    return units


def whole(code, units):
    """Returns the code of a test with that of the foundations that it names, directly or through others."""
    texts, left = [], [code]
    while left:
        text = left.pop()
        if text not in texts:
            texts.append(text)
            named = (name for names in WITH.findall(text) for name in re.split(r"[\s,]+", names))
            left += [units[name] for name in named if name in units]
    return "\n".join(texts)


def group_of(name, code):
    """Returns the group of a test, or None if it uses no tasking."""
    if CHAPTERS.match(name):
        if any(ENTRY.search(specification) for specification in SPECIFICATION.findall(code)):
            return ENTRIES
        if ANY_PROTECTED.search(code):
            return PROTECTED
    return TASKS if TASKING.search(code) else None


def picked(beginnings):
    """Returns the name, the group and the files of each test that is run, sorted by group and name. If beginnings are given,
    leaves out the tests whose name begins with none of them."""
    units = foundations()
    tests = []
    for name, paths in files().items():
        group = group_of(name, whole("\n".join(map(code_of, paths)), units))
        if group is not None and (not beginnings or name.startswith(tuple(beginnings))):
            tests.append((name, group, paths))
    places = list(GROUPS)
    return sorted(tests, key=lambda test: (places.index(test[1]), test[0]))
