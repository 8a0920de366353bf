# SPDX-License-Identifier: MIT
"""Explores a scene, and draws each finding of the report that has a script: DIR/1.svg, DIR/2.svg and so on, in the report's order.
The report and the status are those of the exploration.

    findings.py PROGRAM explore WORDS..     PROGRAM explores scenes, as `pobj` does; two of WORDS are `--picture DIR`
"""

import os
import pathlib
import subprocess
import sys

sys.dont_write_bytecode = True
sys.path.insert(0, str(pathlib.Path(__file__).resolve().parent))

import lanes
import report
from picture import Refused, replace, write

MOST_COMMANDS = 2_000
OPTION = "--picture"


def split(words):
    """Returns the folder that comes after `--picture`, and the words without these two. Words after `--` are left as they are."""
    own = words[: words.index("--")] if "--" in words else words
    places = [place for place, it in enumerate(own) if it.partition("=")[0] == OPTION]
    first = places[0] if len(places) == 1 else len(own)
    option, is_joined, folder = "".join(own[first : first + 1]).partition("=")
    rest = first + (1 if is_joined else 2)
    folder = folder if is_joined else "".join(own[first + 1 : rest])
    if not option or not folder or folder.startswith("-"):
        raise Refused("--picture takes a folder for the pictures, and comes once: pobj explore SCENE --picture DIR", 2)
    return folder, words[:first] + words[rest:]


def look_for_room(folder):
    """Refuses a folder that can't be made or written to, before the exploration takes its time."""
    path = pathlib.Path(folder).resolve()
    there = next(it for it in (path, *path.parents) if it.exists())
    if not there.is_dir():
        raise Refused(f"{folder} can't be a folder for pictures: {there} is a file", 4)
    if not os.access(there, os.W_OK | os.X_OK):
        raise Refused(f"{folder} can't be written: {there} isn't writable", 4)


def explored(program, words):
    """Returns the report of the exploration, and its status. What the program writes on standard error is shown at once."""
    ended = subprocess.run([program, *words], stdout=subprocess.PIPE, check=False)
    return ended.stdout, ended.returncode if ended.returncode >= 0 else 128 - ended.returncode


def draw(findings, folder):
    """Draws the findings into the folder, and says which files there are."""
    names = []
    for number, it in enumerate(findings, 1):
        if len(it.commands) > MOST_COMMANDS:
            print(f"pobj: finding {number} isn't drawn: a picture has at most {MOST_COMMANDS} commands", file=sys.stderr)
            continue
        names.append(str(pathlib.Path(folder) / f"{number}.svg"))
        pathlib.Path(folder).mkdir(parents=True, exist_ok=True)
        replace(names[-1], lanes.draw(it))
    if names:
        print(f"pobj: drawn: {', '.join(names)}", file=sys.stderr)


def carry_out(program, words):
    """Explores, shows the report, draws its findings, and returns the status."""
    folder, words = split(words)
    look_for_room(folder)
    text, status = explored(program, words)
    write(text)
    draw(report.read(text.decode("utf-8", "replace")), folder)
    return status


def main(program, words):
    """Carries out the words, and returns the status."""
    try:
        return carry_out(program, words)
    except Refused as refusal:
        print(f"pobj: {refusal}", file=sys.stderr)
        return refusal.status
    except report.Unread as fault:
        print(f"pobj: the report can't be drawn: {fault}", file=sys.stderr)
        return 4
    except OSError as fault:
        print("pobj: write failed" + (f": {fault.filename}: {fault.strerror}" if fault.filename else ""), file=sys.stderr)
        return 4
    except KeyboardInterrupt:
        return 130


if __name__ == "__main__":
    sys.exit(main(sys.argv[1], sys.argv[2:]))
