# SPDX-License-Identifier: MIT
"""Looks for the words that CONTRIBUTING.md ("Words") asks not to use, in pages and in comments of code, definitions, proofs and
scripts. Prints a line for each place, and then how many files passed and failed. Called by pages.sh."""

import pathlib
import re
import subprocess
import sys

# What has to be read twice, as a pattern, and what to write instead.
WORDS = [
    (r"[Ww]here (no|the|there|it|its|a|an|all|memory|that|this|one|none|nothing|nobody|each|any|both|they) ", "if, when"),
    (r"\b[Bb]ehind (that|all|it|them|this|which|each|a|an|the|its) (?!.{0,12}\block)", "after"),
    (r"\b(is|are|was|were) wanting\b", "out of memory, missing"),
    (r"\bso many\b", "that many, as many as"),
    (r"\b[Ww]ho (ends|tells|calls|asks) ", "a thread that ..., a caller that ..."),
    (r"\b(is|are|was) had\b", "there is, is available"),
    (r"\b[Nn]obody who\b", "no one who"),
    (r"\bwhat was got\b", "the values taken out"),
]

# How a comment begins, by the ending of the file. A page is text throughout.
COMMENTS = {
    ".rt": r"//", ".c": r"//|/?\*", ".h": r"//|/?\*", ".pml": r"//|/?\*", ".antt": r"--", ".adb": r"--", ".ads": r"--",
    ".sh": r"#", ".py": r"#|\"\"\"", ".awk": r"#", ".edit": r"#", "": r"#",
}
PATTERNS = [(re.compile(pattern), better) for pattern, better in WORDS]


def files():
    """The files that git tracks, and new ones that it doesn't ignore."""
    listed = subprocess.run(["git", "ls-files", "-co", "--exclude-standard"], capture_output=True, text=True, check=True)
    return sorted(pathlib.Path(name) for name in listed.stdout.splitlines() if pathlib.Path(name).is_file())


def texts_of(path, lines):
    """The lines of a file that are text for readers, each with its number."""
    if path.suffix == ".md":
        inside = False
        for number, line in enumerate(lines, 1):
            inside ^= line.startswith("```")
            if not inside:
                yield number, line
        return
    begins = re.compile(r"(?:^|\s)(?:" + COMMENTS[path.suffix] + r")(.*)")
    for number, line in enumerate(lines, 1):
        found = begins.search(line)
        if found:
            yield number, found.group(1)


def faults(path):
    """What has to be written otherwise in a file, a line each."""
    for number, text in texts_of(path, path.read_text(errors="replace").splitlines()):
        for pattern, better in PATTERNS:
            found = pattern.search(text)
            if found:
                yield f"{path}:{number}: '{found.group(0).strip()}' reads twice, write {better}: {text.strip()}"


def main(words):
    """Looks through all files, or through those whose paths begin with one of the words."""
    passed = failed = 0
    for path in files():
        known = path.suffix == ".md" or path.suffix in COMMENTS
        if not known or path.name in ("words.py", "LICENSE", "HANDLES") or (words and not str(path).startswith(tuple(words))):
            continue
        found = list(faults(path))
        print(*found, sep="\n", end="\n" if found else "")
        passed, failed = passed + (not found), failed + bool(found)
    print(f"{passed} passed, {failed} failed")
    return failed > 0


if __name__ == "__main__":
    sys.exit(main(sys.argv[1:]))
