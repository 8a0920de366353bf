# SPDX-License-Identifier: MIT
"""The pictures of the pages, docs/pictures/NAME.svg. Those of scripts are drawn from examples/NAME.pobj or
comparison/differences/NAME.pobj, and from NAME.out beside the picture: the answers to a copy of the script that asks for the state.
Those of findings are drawn from reports of `pobj explore`, examples/scenes/NAME.out.

    pages.py asking NAME          writes that copy to standard output
    pages.py draw                 draws all pictures of the pages
"""

import pathlib
import sys

sys.dont_write_bytecode = True
sys.path.insert(0, str(pathlib.Path(__file__).resolve().parent))

import crates
import lanes
import report
import sequence
import story
import timeline

TOP = pathlib.Path(__file__).resolve().parent.parent.parent
PICTURES = TOP / "docs/pictures"
SCRIPTS = (TOP / "examples", TOP / "comparison/differences")
# The scenes of whose reports pages show the first finding.
SCENES = ("crossed",)


def script_of(name):
    """Returns the file of the script of that name."""
    for folder in SCRIPTS:
        if (folder / f"{name}.pobj").exists():
            return folder / f"{name}.pobj"
    raise FileNotFoundError(f"there is no script {name}.pobj in examples/ or comparison/differences/")


def of_script(name):
    """Returns the picture of a script."""
    file = script_of(name)
    told = story.read(file.read_bytes(), (PICTURES / f"{name}.out").read_text())
    return timeline.draw(told, file.name)


def of_scene(name):
    """Returns the picture of the first finding in the report of a scene."""
    return lanes.draw(report.read((TOP / f"examples/scenes/{name}.out").read_text())[0])


def all_pictures():
    """Returns all pictures of the pages, by their names."""
    pictures = {file.stem: of_script(file.stem) for file in sorted(PICTURES.glob("*.out"))}
    pictures |= {name: of_scene(name) for name in SCENES}
    pictures["crates"] = crates.draw((TOP / "crates.txt").read_text())
    pictures["waiting"] = sequence.draw()
    return pictures


def main(words):
    """Carries out the words, and returns the status."""
    if words[:1] == ["asking"] and len(words) == 2:
        sys.stdout.buffer.write(story.asking(script_of(words[1]).read_bytes())[0])
    elif words == ["draw"]:
        for name, picture in all_pictures().items():
            (PICTURES / f"{name}.svg").write_bytes(picture.encode())
    else:
        print(__doc__, file=sys.stderr)
        return 2
    return 0


if __name__ == "__main__":
    sys.exit(main(sys.argv[1:]))
