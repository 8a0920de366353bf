# SPDX-License-Identifier: MIT
"""The two programs, pobj and the one in Ada: how they are built and run, and the form in which their answers are compared."""

import os
import pathlib
import re
import shutil
import subprocess
import sys
import tempfile

HERE = pathlib.Path(__file__).resolve().parent
TOP = HERE.parent
# The folder for what gnatmake builds, and for scripts that differ.
OUT = HERE / "out"
# The program pobj, unless the environment names another one.
POBJ = os.environ.get("POBJ", str(TOP / "pobj"))
# What carries out scripts by a trial of pobj's sources, and two of its statuses.
TRIAL = HERE / "trial.sh"
IS_BUILT, NO_RT = 3, 6
# What a trial wrote on scripts, by their texts: the answers, or None if the script has a fault.
tried = {}
# The runtime folder (`./pobj ada DEST`) over which GNAT's tasks carry out scripts, or None for GNAT's own runtime.
runtime = None
# How long a run of either program may take, in seconds.
LIMIT = 120
# How long a task is given to take note of something, in milliseconds: at first, and if the programs then differ or the
# machine was too slow.
STEPS = (20, 100, 400)
# The status of the Ada program if it was given too little time.
TOO_LATE = 3


class Missing(Exception):
    """Something has to be installed first."""


class Failed(Exception):
    """A program couldn't be built or run."""


def say(text):
    """Says on standard error what is going on."""
    print(f"compare: {text}", file=sys.stderr)


def make(folder, words, name):
    """Runs gnatmake with these words in the folder. The name is for messages."""
    if shutil.which("gnatmake") is None:
        raise Missing("there is no gnatmake; install it with: sudo apt-get install gnat")
    built = subprocess.run(["gnatmake", "-q", "-gnat2022", *words], cwd=folder, capture_output=True, text=True)
    if built.returncode != 0:
        raise Failed(f"gnatmake can't build {name}:\n{built.stderr}")


def build(name, level):
    """Builds an Ada program at this level of optimization."""
    OUT.mkdir(exist_ok=True)
    make(OUT, [level, "-I../ada", f"{name}.adb"], name)


def prepare():
    """Builds the Ada programs that carry out scripts."""
    for name in ("carry_out", "two_functions"):
        build(name, "-O1")


def is_runtime(folder):
    """Returns whether the folder is a complete runtime: its libraries are there, and aren't GNAT's own."""
    libraries = [folder / "adalib" / name for name in ("libgnarl-12.so", "libgnarl.a")]
    return (folder / "POBJ").is_file() and all(library.is_file() and not library.is_symlink() for library in libraries)


def runtime_at(path):
    """Returns the absolute path of a runtime folder. With another folder, programs would run without the engine, unnoticed."""
    if not is_runtime(pathlib.Path(path)):
        made = "" if pathlib.Path(path).exists() else f"; ./pobj ada {path} makes one"
        raise Failed(f"{path} isn't a runtime folder{made}")
    return pathlib.Path(path).resolve()


def over(folder):
    """Returns the environment with which pobj, in this runtime folder, carries out the protected objects of a program."""
    return {} if folder is None else {"LD_LIBRARY_PATH": f"{folder}/adalib"}


def run(words, text, limit=LIMIT, environment=None):
    """Runs a program with the text on its standard input, and ends it after the limit. The environment is added to the present
    one."""
    with_this = {**os.environ, **(environment or {})}
    try:
        return subprocess.run(words, input=text, capture_output=True, text=True, timeout=limit, env=with_this)
    except subprocess.TimeoutExpired as late:
        raise Failed(f"{' '.join(words)} took more than {limit} seconds on this script:\n{text}") from late


def text_of(file):
    """Returns the text of a script, whose skipped lines may hold any bytes."""
    return file.read_bytes().decode(errors="replace")


def lay_out(texts, units, folder):
    """Writes each script into a file of the folder, whose name is the script's place, and beside it the words of `pobj` for a script
    on an Ada text: trial.sh puts each text into a folder whose name is the text's place."""
    folder.mkdir()
    places = {unit: place for place, unit in enumerate(dict.fromkeys(units.values()))}
    for place, text in enumerate(texts):
        (folder / str(place)).write_text(text, encoding="utf-8")
        if text in units:
            (folder / f"{place}.args").write_text(f"run\n--unit\n{places[units[text]]}/{units[text].name}\n")


def take_answers(texts, room):
    """Takes what a trial wrote on the scripts."""
    said = (room / "said").read_text(errors="replace")
    statuses = dict(re.findall(r"^case=([0-9]+) run=ended status=([01]) ", said, re.MULTILINE))
    if len(statuses) < len(texts):
        raise Failed(f"the trial of pobj's sources gave no answer to a script:\n{said[-2000:]}")
    parts = re.split(r"^== ([0-9]+)\n", (room / "answers").read_text(errors="replace"), flags=re.MULTILINE)
    for name, answers_to_it in zip(parts[1::2], parts[2::2]):
        tried[texts[int(name)]] = answers_to_it if statuses[name] == "0" else None


def try_scripts(texts, files=()):
    """Has one trial of pobj's sources carry out the scripts that no trial carried out yet, if pobj isn't built. If it is, of_pobj runs
    it for each. The files are the Ada texts that the scripts are on, one for each, or none for the eight units."""
    units, texts = dict(zip(texts, files)), [text for text in dict.fromkeys(texts) if text not in tried]
    if "POBJ" in os.environ or not texts:
        return
    with tempfile.TemporaryDirectory() as name:
        room = pathlib.Path(name)
        lay_out(texts, units, room / "cases")
        status = subprocess.run([TRIAL, name, *dict.fromkeys(units.values())], stdin=subprocess.DEVNULL).returncode
        if status == NO_RT:
            raise Missing("pobj isn't built, and the command rt isn't found: see \"Limits and the kit\" in README.md")
        if status != IS_BUILT:
            take_answers(texts, room)


def of_pobj(text):
    """Returns what pobj writes, or None if the script itself has a fault."""
    if text in tried:
        return tried[text]
    ended = run([POBJ, "run"], text)
    if ended.returncode not in (0, 1):
        raise Failed(f"{POBJ} ended with status {ended.returncode} on this script:\n{text}\n{ended.stderr}")
    return ended.stdout if ended.returncode == 0 else None


def of_gnat(text, step):
    """Returns what GNAT's protected object writes, or None if the machine was too slow for this step of time. A call that is
    never woken uses up the time before later deadlines: then what was written until then is the answer."""
    ended = run([str(OUT / "carry_out"), str(step)], text, environment=over(runtime))
    if ended.returncode not in (0, TOO_LATE):
        raise Failed(f"the Ada program ended with status {ended.returncode} on this script:\n{text}\n{ended.stderr}")
    return ended.stdout if ended.returncode == 0 or "never woken" in ended.stdout else None


def commands(text):
    """Returns the lines of the script that are commands."""
    return [line for line in text.split("\n") if line.strip(" ") and not line.strip(" ").startswith("#")]


def shown(text):
    """Returns the script with a `show` after each command, so that all queues are compared after each."""
    return "".join(f"{command}\nshow\n" for command in commands(text))


END = re.compile(r"([0-9]+) (done|raised|cancelled|program_error)( .*)?")


def settled(ends):
    """Returns the ends of one command: first those that bodies caused, in their order, then the others by number. A task
    learns of its cancellation, or of Program_Error, in its own time, so the place of these means nothing."""
    bodies = [end for end in ends if END.fullmatch(end)[2] in ("done", "raised")]
    others = [end for end in ends if end not in bodies]
    return bodies + sorted(others, key=lambda end: int(end.split(" ")[0]))


def comparable(answers):
    """Returns the lines of the answers in the form in which they are compared."""
    lines, ends = [], []
    for line in answers.splitlines():
        if END.fullmatch(line):
            ends.append(line)
        else:
            lines += settled(ends) + [line]
            ends = []
    return lines + settled(ends)


def answers(text, wanted=None):
    """Returns what each writes on the script, in comparable form. GNAT is tried again with longer steps of time until it
    writes what is wanted: by default, what pobj writes."""
    ours = comparable(of_pobj(text))
    theirs = None
    for step in STEPS:
        written = of_gnat(text, step)
        if written is not None:
            theirs = comparable(written)
            if theirs == (ours if wanted is None else wanted):
                break
    if theirs is None:
        raise Failed(f"this machine is too slow for the script:\n{text}")
    return ours, theirs
