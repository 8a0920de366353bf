# SPDX-License-Identifier: MIT
"""Has GNAT carry out each script that `pobj explore` reports of a scene, and random orders, and compares the answers."""

import pathlib
import re
import tempfile

import programs
import scene_orders
import scene_program
import scene_text
import text_report

# The statuses of `pobj explore` for a search that ended, and how many seconds a trial of its sources may take.
ENDED, SECONDS = (0, 3, 7), 600
# The seed of orders that are drawn by lot, unless another one is named.
SEED = 1


def findings(report):
    """The findings of a report: the line that says what was found, and the script, whose lines are indented."""
    title, script = None, []
    for line in [*report.splitlines(), ""]:
        if line.startswith("    "):
            script.append(line[4:])
            continue
        if title is not None and script:
            yield title, "".join(f"{one}\n" for one in script)
        title, script = line, []


def text_of(script):
    """The Ada text that the script's first line names, and the script with the text's own name there; nothing for a script that has
    several objects or names no text."""
    named = re.match(r'unit +file +"([^"]*)"', script)
    if named is None:
        return None, script
    text = pathlib.Path(named[1])
    return text, f"unit {text.stem}{script[named.end():]}"


class Alone:
    """A reported script of one object."""

    def __init__(self, script):
        self.text, self.script = text_of(script)

    def tries(self):
        """Returns the scripts that pobj is asked for, and their texts."""
        return [(self.script, self.text), (programs.shown(self.script), self.text)]

    def compare(self):
        """Prints what comes of the comparison, and returns the status."""
        with tempfile.TemporaryDirectory() as folder:
            file = pathlib.Path(folder) / "found.pobj"
            file.write_text(self.script)
            return text_report.one_script(file, self.text)


def report_of(scene):
    """Returns what `pobj explore` reports of the scene."""
    ended = programs.run([programs.POBJ, "explore", str(scene)], "", SECONDS)
    if ended.returncode not in ENDED:
        raise programs.Failed(f"{programs.POBJ} ended with status {ended.returncode}:\n{ended.stderr}")
    return ended.stdout


def status_of(title, work):
    """Prints the title and what comes of the comparison, and returns the status."""
    print(title, flush=True)
    try:
        return work.compare()
    except programs.Failed as why:
        print(why)
        return 4


def explore(file, seed=SEED):
    """Compares each script that is reported of the scene, and orders that are drawn by lot. Returns the status."""
    report = report_of(file)
    play = scene_program.Play(scene_text.read(programs.text_of(file)))
    is_one = len(play.scene.objects) == 1
    found = [(title, Alone(script) if is_one else scene_orders.Reported(play, script)) for title, script in findings(report)]
    found.append((report.splitlines()[-1], scene_orders.Drawn(play, seed)))
    tries = [one for _, work in found for one in work.tries()]
    programs.try_scripts([script for script, _ in tries], [text for _, text in tries])
    return max([status_of(title, work) for title, work in found])
