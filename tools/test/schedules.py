# SPDX-License-Identifier: MIT
"""Checks that docs/TESTING.md has how many schedules the scenes of crates/test_schedules have, as every_order.out counts them, without
those that were cut off because they repeat others. The last line is 'N passed, M failed'."""

import pathlib
import re
import sys

TOP = pathlib.Path(__file__).resolve().parent.parent.parent
PAGE = TOP / "docs/TESTING.md"
LINE = re.compile(r"([\w ]+), (\w+), (up to 1 interruptions|every order)(, sleeps that end for no reason)?: (\d+) schedules, (\d+) cut off")
ONE, EVERY = "up to 1 interruptions", "every order"


def read(text):
    """The number of schedules by scene, kind of object, order, and whether sleeps end for no reason."""
    return {(scene, kind, order, bool(dozes)): int(played) - int(cut) for scene, kind, order, dozes, played, cut in LINE.findall(text)}


def rows(counts):
    """The cells that the page has to have: recorded and bounded beside each other, and then what is refused memory."""
    dozing = {scene for scene, _, _, dozes in counts if dozes}
    three = {scene for scene, _, order, _ in counts if order == EVERY} - dozing | {"hand_on"}
    two = dozing - three

    def total(scenes, *rest):
        return f"{sum(counts.get((scene, *rest), 0) for scene in scenes):,}"

    for scenes, order, dozes in ((two, EVERY, False), (dozing, EVERY, True), (three, ONE, False), (three, EVERY, False), ({"not all of five"}, ONE, False)):
        yield f"{total(scenes, 'recorded', order, dozes)} | {total(scenes, 'bounded', order, dozes)}"
    yield f"{total(two, 'refused', EVERY, False)}; {total(three, 'refused', ONE, False)}"


def main():
    """Looks for each row in the page, and returns the exit status."""
    page = PAGE.read_text()
    wanted = list(rows(read((TOP / "tools/test/every_order.out").read_text())))
    lacking = [row for row in wanted if f"| {row} |" not in page]
    for row in lacking:
        print(f"FAILED: docs/TESTING.md has no row of schedules with {row}")
    print(f"{len(wanted) - len(lacking)} passed, {len(lacking)} failed")
    return 1 if lacking else 0


if __name__ == "__main__":
    sys.exit(main())
