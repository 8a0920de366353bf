# SPDX-License-Identifier: MIT
"""Draws docs/speed.svg: how often a second both objects of pobj and GNAT's do the same work, by the numbers of the last
`./compare speed`. The picture has colours for light and for dark pages, as those of tools/picture have."""

import json
import math
import statistics
import sys

import programs
import speed

sys.path.append(str(programs.TOP / "tools/picture"))

import svg

FILE = programs.TOP / "docs/speed.svg"
TITLE = "Calls a second: medians, from the lowest to the highest round"
# Colours that can be told apart on white and on black.
COLOURS = {"recorded": "#3f8fd2", "bounded": "#2fa36b", "gnat": "#e07b1a"}
NAMES = {"recorded": "pobj, recorded", "bounded": "pobj, bounded", "gnat": "GNAT"}
# In pixels: the width of the names, of the plot and of the ratios, the height of a row, and the room above and below.
LEFT, WIDTH, RIGHT, ROW, TOP, BOTTOM = 150, 560, 120, 40, 64, 40
UNITS = {3: "1 thousand", 4: "10 thousand", 5: "100 thousand", 6: "1 million", 7: "10 million", 8: "100 million"}


def dot(x, y, name):
    """Returns a dot in the colour of this object."""
    return svg.tag("circle", {"cx": x, "cy": y, "r": 5, "fill": COLOURS[name]})


def mark(rounds, y, name, place):
    """Returns the median of the rounds as a dot, on a line from the lowest to the highest, with the numbers in words."""
    low, middle, high = min(rounds), statistics.median(rounds), max(rounds)
    attributes = {"x1": place(low), "y1": y, "x2": place(high), "y2": y, "stroke": COLOURS[name], "stroke-width": 2}
    words = f"{NAMES[name]}: {middle:,.0f} a second, from {low:,.0f} to {high:,.0f}"
    return svg.told(words, svg.tag("line", attributes), dot(place(middle), y, name))


def decades(numbers):
    """Returns the powers of ten below and above all numbers."""
    rounds = [value for row in numbers.values() for name in NAMES for value in row[name]]
    return math.floor(math.log10(min(rounds))), math.ceil(math.log10(max(rounds)))


def axis(first, last, place, bottom):
    """Returns the lines and texts of the axis."""
    parts = []
    for power in range(first, last + 1):
        x = place(10**power)
        parts += [svg.line(x, TOP - 8, x, bottom, "rule"), svg.text(x, bottom + 20, UNITS[power], "prose quiet", "middle")]
    return parts


def times_gnat(known):
    """Returns how many times as fast as GNAT each of our objects is, in words."""
    ratios = [statistics.median(known[name]) / statistics.median(known["gnat"]) for name in speed.OURS]
    return ", ".join(f"{ratio:.2f}" if ratio < 10 else f"{ratio:.0f}" for ratio in ratios)


def rows(numbers, place):
    """Returns the rows, each with its work, its marks and its ratios; and the same in words."""
    parts, said = [], []
    for n, (row, known) in enumerate(numbers.items()):
        y = TOP + ROW * n + ROW / 2
        work, threads = row.split("/")
        words = f"{work}, {threads} thread{'s' * (threads != '1')}"
        parts.append(svg.text(LEFT - 12, y + 4, words, "prose", "end"))
        parts += [mark(known[name], y + 9 * (k - 1), name, place) for k, name in enumerate(NAMES)]
        parts.append(svg.text(LEFT + WIDTH + RIGHT - 12, y + 4, times_gnat(known), "prose", "end"))
        said.append(f"{words}: {times_gnat(known)} times GNAT.")
    return parts, " ".join(said)


def picture(numbers):
    """Returns the picture of the numbers."""
    first, last = decades(numbers)
    bottom = TOP + ROW * len(numbers)

    def place(value):
        return LEFT + WIDTH * (math.log10(value) - first) / (last - first)

    parts = [svg.text(LEFT, 24, TITLE, "prose head"), *axis(first, last, place, bottom)]
    for n, name in enumerate(NAMES):
        x = LEFT + WIDTH - 330 + 130 * n
        parts += [dot(x, 43, name), svg.text(x + 10, 47, NAMES[name], "prose")]
    parts.append(svg.text(LEFT + WIDTH + RIGHT - 12, 47, "times GNAT", "prose quiet", "end"))
    drawn, said = rows(numbers, place)
    described = f"Recorded and bounded objects of pobj beside GNAT's. {said}"
    return svg.picture(LEFT + WIDTH + RIGHT, bottom + BOTTOM, TITLE, described, "chart", parts + drawn)


def draw():
    """Draws the picture, and returns the status."""
    if not speed.NUMBERS.exists():
        raise programs.Failed("there are no numbers yet; ./compare speed takes them")
    FILE.write_text(picture(json.loads(speed.NUMBERS.read_text())))
    return 0
