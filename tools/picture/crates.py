# SPDX-License-Identifier: MIT
"""Draws the graph of the product's crates by crates.txt. A crate is above those that it depends on. It has an arrow to each of
these, except if another one of them depends on it.

    crates.py CRATES_TXT          writes the picture to standard output
"""

import pathlib
import re
import sys

sys.dont_write_bytecode = True
sys.path.insert(0, str(pathlib.Path(__file__).resolve().parent))

from svg import box, picture, tag, text, told

# The crates that are no part of the product: tests, examples, and programs that measure.
NO_PRODUCT = re.compile(r"(test|example|bench)_.*")
# In pixels: the margin, the height of a box, the distance of two layers and of two neighbouring boxes, and the room for an arrow
# that passes a layer.
MARGIN, HIGH, BETWEEN, BESIDE, PASSING = 16, 26, 34, 14, 16
LETTER = 6.7
SWEEPS = 24


def needs_in(words):
    """Returns for each crate of the product those that it depends on, by the text of crates.txt."""
    lines = [it.partition(":") for it in words.splitlines() if it and not it.startswith("#")]
    names = {it[0].split(" ")[0]: it[2].split() for it in lines}
    names = {name: needs for name, needs in names.items() if not NO_PRODUCT.fullmatch(name)}
    return {name: [it for it in needs if it in names] for name, needs in names.items()}


def below(needs, name):
    """Returns all crates that a crate depends on, directly or not."""
    found = set()
    for it in needs[name]:
        found |= {it} | below(needs, it)
    return found


def direct(needs):
    """Returns the arrows: what each crate depends on, without what another one of these depends on."""
    return {name: [it for it in on if not any(it in below(needs, other) for other in on)] for name, on in needs.items()}


def layers_of(arrows):
    """Returns the layer of each crate, from 0 at the bottom."""

    def layer(name):
        return 1 + max((layer(it) for it in arrows[name]), default=-1)

    return {name: layer(name) for name in arrows}


class Graph:
    """The crates in layers. An arrow that passes layers has a place in each of them, so it goes between the boxes."""

    def __init__(self, needs):
        self.arrows = direct(needs)
        self.layers = layers_of(self.arrows)
        self.rows = [[] for _ in range(max(self.layers.values()) + 1)]
        self.beside = {}
        for name, layer in self.layers.items():
            self.add(name, layer)
        self.ways = [self.way(name, it) for name in self.arrows for it in self.arrows[name]]
        self.centres = {}
        self.arrange()

    def add(self, node, layer):
        """Puts a box, or the place of an arrow, into a layer."""
        self.rows[layer].append(node)
        self.beside[node] = []

    def way(self, name, target):
        """Adds an arrow, and returns the boxes and places that it joins, from the upper box down."""
        way = [name]
        for layer in range(self.layers[name] - 1, self.layers[target], -1):
            way.append((name, target, layer))
            self.add(way[-1], layer)
        way.append(target)
        for one, other in zip(way, way[1:]):
            self.beside[one].append(other)
            self.beside[other].append(one)
        return way

    @staticmethod
    def width(node):
        """Returns the width of a box, or of the place of an arrow."""
        return LETTER * len(node) + 18 if isinstance(node, str) else PASSING

    def arrange(self):
        """Orders each layer so that its boxes come near those that they are joined with, upwards and downwards in turns."""
        for row in self.rows:
            self.spread(row, range(len(row)))
        for turn in range(SWEEPS):
            rows = self.rows if turn % 2 else self.rows[::-1]
            for row in rows:
                self.spread(row, self.wishes(row))
        low = min(self.centres[it] - self.width(it) / 2 for row in self.rows for it in row)
        self.centres = {it: x - low + MARGIN for it, x in self.centres.items()}

    def wishes(self, row):
        """Returns the best place for each box of a layer: the middle of all that it is joined with."""
        joined = [[self.centres[it] for it in self.beside[node]] or [self.centres[node]] for node in row]
        return [sum(places) / len(places) for places in joined]

    def spread(self, row, wishes):
        """Orders a layer by its wishes, and sets its places as near to them as room allows."""
        order = sorted(range(len(row)), key=lambda n: (wishes[n], n))
        wanted = [wishes[n] for n in order]
        row[:] = [row[n] for n in order]
        gaps = [(self.width(one) + self.width(other)) / 2 + BESIDE for one, other in zip(row, row[1:])]
        offsets = [sum(gaps[:n]) for n in range(len(row))]
        for node, x, offset in zip(row, rising([x - offset for x, offset in zip(wanted, offsets)]), offsets):
            self.centres[node] = x + offset


def rising(wanted):
    """Returns the rising numbers that are nearest to these: falling runs become their mean."""
    runs = []
    for it in wanted:
        runs.append([it, 1])
        while len(runs) > 1 and runs[-2][0] > runs[-1][0]:
            mean, count = runs.pop()
            runs[-1] = [(runs[-1][0] * runs[-1][1] + mean * count) / (runs[-1][1] + count), runs[-1][1] + count]
    return [mean for mean, count in runs for _ in range(count)]


def arrow(graph, way, y):
    """Returns an arrow, with its words."""
    middle = HIGH / 2
    x = graph.centres
    points = [f"M{x[way[0]]:.1f} {y(way[0]) + middle:.1f}"]
    for n, (one, other) in enumerate(zip(way, way[1:]), 1):
        last = n == len(way) - 1
        y1, y2 = y(one) + middle, y(other) - middle - (6 if last else 0)
        bend = (y2 - y1) / 2
        points.append(f"C{x[one]:.1f} {y1 + bend:.1f} {x[other]:.1f} {y2 - bend:.1f} {x[other]:.1f} {y2:.1f}")
        points.append("" if last else f"V{y(other) + middle:.1f}")
    end = x[way[-1]], y(way[-1]) - middle
    head = tag("path", {"d": f"M{end[0]:.1f} {end[1]:.1f}l-4 -7h8z", "class": "head-of"})
    return told(f"{way[0]} depends on {way[-1]}", tag("path", {"d": "".join(points), "class": "arrow"}), head)


def draw(words):
    """Returns the picture of the graph."""
    needs = needs_in(words)
    graph = Graph(needs)
    top = MARGIN + 34

    def y(node):
        layer = graph.layers[node] if isinstance(node, str) else node[2]
        return top + (len(graph.rows) - 1 - layer) * (HIGH + BETWEEN) + HIGH / 2

    width = max(graph.centres[it] + graph.width(it) / 2 for row in graph.rows for it in row) + MARGIN
    parts = [text(MARGIN, 26, "The crates of the product, and what each depends on", "prose head")]
    parts += [arrow(graph, way, y) for way in graph.ways]
    for name in graph.arrows:
        x, wide = graph.centres[name], graph.width(name)
        on = ", ".join(graph.arrows[name])
        square = box(x - wide / 2, y(name) - HIGH / 2, wide, float(HIGH), "crate", 3.0)
        parts.append(told(f"{name}: depends on {on or 'no other crate'}", square, text(x, y(name) + 4, name, "", "middle")))
    height = top + len(graph.rows) * (HIGH + BETWEEN) - BETWEEN + MARGIN
    said = " ".join(f"{name} depends on {', '.join(on)}." for name, on in graph.arrows.items() if on)
    described = f"An arrow goes from a crate to one that it depends on. {said}"
    return picture(width, height, "The crates of the product", described, "graph", parts)


if __name__ == "__main__":
    sys.stdout.buffer.write(draw(pathlib.Path(sys.argv[1]).read_text()).encode())
