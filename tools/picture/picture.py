# SPDX-License-Identifier: MIT
"""Draws what a script does as a time line, in SVG. It has the program carry out a copy of the script, which asks for the state
after each command.

    picture.py PROGRAM [--unit TEXT] [FILE] [-o PICTURE]     PROGRAM carries out scripts, as `pobj` does
"""

import os
import pathlib
import re
import subprocess
import sys
import tempfile

sys.dont_write_bytecode = True
sys.path.insert(0, str(pathlib.Path(__file__).resolve().parent))

import story
import timeline

USAGE = """usage: pobj picture [--unit TEXT] [FILE] -o PICTURE.svg    draws a time line of what the script does
       pobj picture [--unit TEXT] [FILE] > PICTURE.svg

With --unit the object is the protected one of an Ada text. Without FILE the script is read from standard input. Without -o the picture, which is SVG, goes to standard output. If it can't be
drawn, -o leaves PICTURE.svg as it was. If the script has a fault, the picture shows what ran before it. A script has at most 2,000
commands and 8 MiB.

Statuses: those of `pobj run`; 1 also if there is nothing to draw, or too much."""
MOST_COMMANDS, MOST_BYTES = 2_000, 8 * 2**20
FAULT = re.compile(rb"pobj: line ([0-9]+): (.*)\n?")


class Refused(Exception):
    """Why there is no picture, and the status."""

    def __init__(self, why, status):
        super().__init__(why)
        self.status = status


def script_in(words):
    """Returns the script that the words name, and the name of its file."""
    if not words:
        return sys.stdin.buffer.read(MOST_BYTES + 1), ""
    path = pathlib.Path(words[0])
    try:
        with path.open("rb") as file:
            return file.read(MOST_BYTES + 1), path.name
    except OSError as fault:
        raise Refused(f"{words[0]} can't be opened: {fault.strerror}", 4) from fault


def look_at(script):
    """Refuses a script that can't be drawn."""
    if len(script) > MOST_BYTES:
        raise Refused("a script that is drawn has at most 8 MiB", 1)
    commands = list(story.commands_of(script))
    if not commands:
        raise Refused("the script has no command, so there is nothing to draw", 1)
    if len(commands) > MOST_COMMANDS:
        raise Refused(f"line {commands[MOST_COMMANDS]}: a picture has at most {MOST_COMMANDS} commands", 1)


def own_line(said, numbers):
    """Returns what the program said on standard error, and the fault. If it names a line of the copy, the text names the script's
    own line instead, and the fault is that line and what is wrong with it; else the text is as it was, and the fault None."""
    found = FAULT.fullmatch(said)
    if found is None or not 0 < int(found[1]) <= len(numbers):
        return said, None
    number = numbers[int(found[1]) - 1]
    return b"pobj: line %d: %s\n" % (number, found[2]), (number, found[2].decode())


def carried_out(program, script, text):
    """Returns what the program answers to the copy of the script, the fault that ended it, and the status. What the program writes
    on standard error is passed on at once, since a trial says first that it takes a minute."""
    copy, numbers = story.asking(script, story.ASKED_OF_TEXT if text else story.ASKED)
    words, fault = ["run", "--unit", text] if text else ["run"], None
    with tempfile.TemporaryFile() as given, tempfile.TemporaryFile() as taken:
        given.write(copy)
        given.seek(0)
        with subprocess.Popen([program, *words], stdin=given, stdout=taken, stderr=subprocess.PIPE) as running:
            for said in running.stderr:
                shown, found = own_line(said, numbers)
                fault = found or fault
                sys.stderr.buffer.write(shown)
                sys.stderr.buffer.flush()
        taken.seek(0)
        return taken.read().decode("ascii", "replace"), fault, running.returncode


def drawn(program, words, text):
    """Returns the picture of the script that the words name, or "" if there is none, and the status of its run. `text` names the
    Ada text of the object, if it isn't None."""
    script, name = script_in(words)
    look_at(script)
    answers, fault, status = carried_out(program, script, text or story.text_of(script))
    if status not in (0, 1) or (status == 1 and fault is None):
        return "", status
    told = story.read(script, answers, fault)
    return timeline.draw(told, name) if told.commands else "", status


def take_option(words, option):
    """Takes the option and the word after it out of the words. Returns that word, or None if the option isn't there."""
    if option not in words[:-1]:
        return None
    at = words.index(option)
    value = words[at + 1]
    del words[at : at + 2]
    return value


def asked(words):
    """Returns the words without `-o PICTURE` and `--unit TEXT`, then PICTURE or None, and TEXT or None. Instead of words that are
    refused it returns None."""
    words = list(words)
    output, text = take_option(words, "-o"), take_option(words, "--unit")
    return (None if len(words) > 1 or any(it.startswith("-") for it in words) else words), output, text


def look_for_room(output):
    """Refuses a file that can't be written, before the script takes its time."""
    path = pathlib.Path(output)
    if path.exists() and not path.is_file():
        raise Refused(f"{output} isn't a file", 4)
    if not os.access(path.resolve().parent, os.W_OK):
        raise Refused(f"{output} can't be written: its folder isn't there, or can't be written", 4)


def replace(output, picture):
    """Writes the picture beside the file, and gives it the file's name once it is whole."""
    path = pathlib.Path(output).resolve()
    beside = path.with_name(f"{path.name}.{os.getpid()}")
    try:
        beside.write_text(picture)
        beside.replace(path)
    finally:
        beside.unlink(missing_ok=True)


def write(data):
    """Writes these bytes to standard output, without a buffer that Python would write again at its end."""
    rest = memoryview(data)
    while rest:
        rest = rest[os.write(1, rest) :]


def put(picture, output):
    """Writes the picture to the file, or to standard output if none is named, and returns the status."""
    try:
        if output is None:
            write(picture.encode())
        elif picture:
            replace(output, picture)
    except OSError as fault:
        print("pobj: write failed" + (f": {output}: {fault.strerror}" if output else ""), file=sys.stderr)
        return 4
    return 0


def carry_out(program, words, output, text):
    """Draws the picture and writes it, and returns the status."""
    try:
        if output is not None:
            look_for_room(output)
        picture, status = drawn(program, words, text)
    except Refused as refusal:
        print(f"pobj: {refusal}", file=sys.stderr)
        return refusal.status
    except (story.Unread, OSError) as fault:
        print(f"pobj: the picture can't be drawn: {fault}", file=sys.stderr)
        return 4
    except KeyboardInterrupt:
        return 130
    return put(picture, output) or status


def main(program, words):
    """Carries out the words, and returns the status."""
    if words in (["--help"], ["-h"]):
        print(USAGE)
        return 0
    words, output, text = asked(words)
    if words is None:
        print(USAGE, file=sys.stderr)
        return 2
    return carry_out(program, words, output, text)


if __name__ == "__main__":
    sys.exit(main(sys.argv[1], sys.argv[2:]))
