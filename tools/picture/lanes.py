# SPDX-License-Identifier: MIT
"""Draws a finding of `pobj explore`. Each command has a column, and each caller a row with its commands. A bar goes from a call that
waits to the command that ended it, or to the right edge. If the columns don't fit side by side, they go on in a further band below.
A band has a row for each caller that makes a command in it or waits."""

import itertools
import math
import textwrap

import marks
from svg import LETTER, MARGIN, PROSE_LETTER, box, legend, line, picture, shortened, tag, text, told

# In pixels: the greatest and the least width of a picture, and the room at the right for what is said of calls that still wait. In a
# column: the room left of a mark, from it to its words, and right of these, and the least width. Then the height of a line of words,
# of one of an answer, of a bar, and of the strip that it is in; and the room below a row.
WIDEST, NARROWEST, RIGHT = 1240, 600, 112
BEFORE, BESIDE, AFTER, NARROW = 14, 8, 6, 56
WORDS, ANSWER, BAR, STRIP, GAP = 13, 12, 15, 20, 8
# How many letters a line of words or a name has at most, and how many lines a command and an answer. Titles have all of them.
MOST_LETTERS, MOST_LINES, MOST_OF_ANSWER = 20, 3, 2
# The colours of a wait that ends, of one that lasts at the end, and of one that lasts for ever; and the first words of bad answers.
ENDS, LASTS, FOR_EVER = "c0", "c2", "c3"
WRONG = ("raised", "program_error", "refused")
READING = "Time goes from left to right. A column is a command, a row a caller, a bar a wait."


def broken(name):
    """Returns the name of an operation, with a space after its object if it is too long for a line."""
    return name if len(name) <= MOST_LETTERS else name.replace(".", ". ", 1)


def in_lines(words, most):
    """Returns words in this many lines at most."""
    lines = textwrap.wrap(words, MOST_LETTERS, break_long_words=False, break_on_hyphens=False)
    if len(lines) > most:
        lines[most - 1 :] = [" ".join(lines[most - 1 :])]
    return [shortened(it, MOST_LETTERS) for it in lines]


def lines_of(command):
    """Returns the lines of a command: what it does, and to what."""
    words = command.text.split(" ")
    first = 2 if command.verb in ("timed", "tick", "cancel") else 1
    rest = " ".join(broken(it) for it in words[first:])
    return [*in_lines(" ".join(words[:first]), 1), *in_lines(rest, MOST_LINES)]


def listed(words):
    """Returns the words as a list: with commas, and `and` before the last."""
    return " and ".join([*([", ".join(words[:-1])] if words[:-1] else []), *words[-1:]])


def first_of(answer):
    """Returns the first word of an answer, which is `done` if it isn't told."""
    return answer.split(" ")[0] or "done"


def kind_of(command):
    """Returns the name of the mark of a command that doesn't wait. That of a call is how it ended."""
    if first_of(command.answer) == "refused":
        return ""
    if command.verb in ("call", "cond", "timed"):
        return first_of(command.answer)
    return "cancel" if command.verb == "abort" else command.verb


def touches(wait, start, stop):
    """Returns whether a part of the wait is among these columns."""
    return wait.begun < stop and (wait.ended is None or wait.ended >= start)


class Lanes:
    """What all bands of a picture share. By the place of a command: `begun` has the wait that it began, `ended` the waits that it
    ended, and `answers` what each caller is answered."""

    def __init__(self, finding):
        self.finding, self.commands = finding, finding.commands
        self.begun = {it.begun: it for it in finding.waits}
        self.ended = [[] for _ in self.commands]
        self.answers = [{it.caller: it.answer} if it.answer else {} for it in self.commands]
        for it in finding.waits:
            if it.ended is not None:
                self.ended[it.ended].append(it)
                self.answers[it.ended][it.caller] = it.answer
        self.lasting, self.colour = ("waits for ever", FOR_EVER) if finding.is_hang else ("still waits", LASTS)
        self.lines = [lines_of(it) for it in self.commands]
        names = [*finding.callers, *(name for name, _ in finding.values)]
        self.left = MARGIN + max(LETTER * min(max(len(it) for it in names), MOST_LETTERS) + 8, 62)
        self.widths = [self.width(place) for place in range(len(self.commands))]

    def width(self, place):
        """Returns the width of a column."""
        answers = [it for answer in self.answers[place].values() for it in in_lines(answer, MOST_OF_ANSWER)]
        letters = max(len(it) for it in [*self.lines[place], *answers])
        return max(BEFORE + BESIDE + LETTER * letters + AFTER, NARROW)

    def filled(self, room):
        """Returns the bands that have at most this room: the first column of each, and the one after its last."""
        starts, used = [0], 0.0
        for place, width in enumerate(self.widths):
            if used and used + width > room:
                starts.append(place)
                used = 0.0
            used += width
        return list(zip(starts, [*starts[1:], len(self.widths)]))

    def bands(self):
        """Returns the bands: as few as there can be, and about equally long."""
        room = int(WIDEST - self.left - RIGHT)
        widest = self.filled(room)
        even = math.ceil(sum(self.widths) / len(widest))
        equal = (self.filled(it) for it in range(even, room, 20))
        return next((it for it in equal if len(it) == len(widest)), widest)

    def how_long(self, wait):
        """Returns in words how long a call waits."""
        return self.lasting if wait.ended is None else f"waits until command {wait.ended + 1}: {wait.answer}"

    def told_of(self, place):
        """Returns a command in words: who makes it, what is answered or how long it waits, and whose waits it ends."""
        command, wait = self.commands[place], self.begun.get(place)
        said = f"{place + 1}, {command.caller}: {command.text}"
        if wait is not None:
            said += f", which {self.how_long(wait)}"
        elif command.answer:
            said += f", answer: {command.answer}"
        return "; ".join([said, *(f"{it.caller} goes on: {it.answer}" for it in self.ended[place])]) + "."


class Row:
    """The row of a caller in a band. `track` is the height of its marks and bars."""

    def __init__(self, band, caller, top):
        self.band, self.whole, self.caller = band, band.whole, caller
        self.places = [it for it in band.places if self.whole.commands[it].caller == caller]
        self.waits = [it for it in self.whole.finding.waits if it.caller == caller and touches(it, band.start, band.stop)]
        self.answers = {it: self.whole.answers[it][caller] for it in band.places if caller in self.whole.answers[it]}
        above = max([len(self.whole.lines[it]) for it in self.places], default=0)
        below = max([len(in_lines(it, MOST_OF_ANSWER)) for it in self.answers.values()], default=0)
        self.track = top + 5 + WORDS * above + STRIP / 2
        self.bottom = self.track + STRIP / 2 + ANSWER * below + GAP

    def draw(self):
        """Returns the row."""
        parts = [text(MARGIN, self.track + 4, shortened(self.caller, MOST_LETTERS), "new")]
        parts += [self.bar(it) for it in self.waits] + [self.command(it) for it in self.places]
        parts += [self.end(it) for it in self.waits if it.ended in self.band.places]
        said = [*(self.whole.told_of(it) for it in self.places), *(self.told_of(it) for it in self.waits)]
        return told(" ".join(said), *parts, role="graphics-object group")

    def told_of(self, wait):
        """Returns a wait in words."""
        return f"{self.caller}: {self.whole.commands[wait.begun].text}, command {wait.begun + 1}, {self.whole.how_long(wait)}."

    def bar(self, wait):
        """Returns the bar of a call that waits, with what is said of it if it goes on after the band."""
        begins, ends = wait.begun in self.band.places, wait.ended in self.band.places
        x1, x2 = self.band.x(wait.begun) if begins else self.band.first, self.band.x(wait.ended) if ends else self.band.right
        room = int((x2 - x1 - 16) / 6.1)
        said = "waits" if begins else shortened(f"waits: {self.whole.commands[wait.begun].text}", room)
        bar = box(x1, self.track - BAR / 2, x2 - x1, float(BAR), f"bar {self.whole.colour if wait.ended is None else ENDS}", 2.0)
        inside = text(x1 + 9, self.track + 4, said, "inside") if len(said) <= room else ""
        return told(self.told_of(wait), bar, inside, "" if ends else self.after_band())

    def after_band(self):
        """Returns what is right of a bar that goes on after the band."""
        if self.band.stop < len(self.whole.commands):
            return text(self.band.right + 5, self.track + 4, "→", "quiet")
        return text(self.band.right + 5, self.track + 4, self.whole.lasting, "new wrong" if self.whole.finding.is_hang else "new")

    def command(self, place):
        """Returns a command: its words, its mark, and its answer."""
        x, lines, bottom = self.band.x(place), self.whole.lines[place], self.track - STRIP / 2
        parts = [box(x - BEFORE, bottom - WORDS * len(lines), self.whole.widths[place], float(WORDS * len(lines) + STRIP), "hit")]
        parts += [text(x + BESIDE, bottom - 3 - WORDS * n, it) for n, it in enumerate(reversed(lines))]
        parts.append(self.mark(place))
        return told(self.whole.told_of(place), *parts, "" if place in self.whole.begun else self.answer(place))

    def mark(self, place):
        """Returns the mark of a command. A call that ended at once has a ring around the mark of its end."""
        x, command = self.band.x(place), self.whole.commands[place]
        if place in self.whole.begun:
            return marks.issued(x, self.track)
        kind = kind_of(command)
        ring = tag("circle", {"cx": x, "cy": self.track, "r": 8.5, "class": "open"}) if kind in marks.OF_ENDS else ""
        return ring + {**marks.OF_COMMANDS, **marks.OF_ENDS}.get(kind, marks.done)(x, self.track)

    def answer(self, place):
        """Returns what the caller is answered at a command."""
        words = self.answers.get(place, "")
        kind = "halo wrong" if first_of(words) in WRONG else "halo"
        x, top = self.band.x(place) + BESIDE, self.track + STRIP / 2 + 8
        return "".join(text(x, top + ANSWER * n, it, kind) for n, it in enumerate(in_lines(words, MOST_OF_ANSWER)))

    def end(self, wait):
        """Returns the end of a call that waited."""
        mark = marks.OF_ENDS.get(first_of(wait.answer), marks.done)(self.band.x(wait.ended), self.track)
        return told(f"{self.caller} goes on at command {wait.ended + 1}: {wait.answer}.", mark, self.answer(wait.ended))


class Band:
    """One band of a picture, from its upper edge on."""

    def __init__(self, whole, start, stop, top):
        self.whole, self.start, self.stop, self.top, self.places = whole, start, stop, top, range(start, stop)
        self.edges = list(itertools.accumulate(whole.widths[start:stop], initial=whole.left))
        self.first, self.right = self.edges[0], self.edges[-1]
        self.rows, self.bottom = [], top + 18
        for caller in self.callers():
            self.rows.append(Row(self, caller, self.bottom))
            self.bottom = self.rows[-1].bottom

    def callers(self):
        """Returns the callers that make a command in the band or wait, in the order of all callers."""
        found = {it.caller for it in self.whole.commands[self.start : self.stop]}
        found |= {it.caller for it in self.whole.finding.waits if touches(it, self.start, self.stop)}
        return [it for it in self.whole.finding.callers if it in found]

    def x(self, place):
        """Returns the place of a column's marks."""
        return self.edges[place - self.start] + BEFORE

    def draw(self):
        """Returns all parts of the band."""
        parts = [self.stripe(place) for place in self.places if place % 2 == 0]
        parts.append(text(MARGIN, self.top + 12, "command", "prose quiet"))
        parts += [text(self.x(it), self.top + 12, str(it + 1), "quiet", "middle") for it in self.places]
        parts += [line(MARGIN, it, self.right, it, "rule") for it in [self.top + 18, *(row.bottom for row in self.rows[:-1])]]
        parts += [self.way(place) for place in self.places]
        return [*parts, *(it.draw() for it in self.rows)]

    def stripe(self, place):
        """Returns the stripe that sets off a column from its neighbours."""
        return box(self.edges[place - self.start], self.top, self.whole.widths[place], self.bottom - self.top, "stripe")

    def way(self, place):
        """Returns a line from a command to the calls that it ended."""
        callers = {self.whole.commands[place].caller, *(it.caller for it in self.whole.ended[place])}
        tracks = [it.track for it in self.rows if it.caller in callers]
        return line(self.x(place), min(tracks), self.x(place), max(tracks), "way") if len(tracks) > 1 else ""


def values(whole, top, width):
    """Returns the values of the objects at the end, and their lower edge."""
    if not whole.finding.values:
        return [], top
    parts, y = [text(MARGIN, top + 12, "The objects at the end", "prose quiet")], top + 30
    for name, said in whole.finding.values:
        lines = textwrap.wrap(said, int((width - whole.left - MARGIN) / LETTER))
        parts += [text(MARGIN, y, shortened(name, MOST_LETTERS), "new")]
        parts += [text(whole.left, y + 15 * n, it) for n, it in enumerate(lines)]
        y += 15 * len(lines)
    return parts, y


def items(whole):
    """Returns what the legend has: the marks and the colours that the picture has."""
    used = {kind_of(it) for place, it in enumerate(whole.commands) if place not in whole.begun}
    used |= {first_of(it.answer) for it in whole.finding.waits if it.ended is not None} | ({"call"} if whole.begun else set())
    found = [(form, "refused" if key == "" else name) for key, (form, name) in marks.NAMES.items() if key in used]
    if any(it.ended is not None for it in whole.finding.waits):
        found.append((marks.swatch(ENDS), "waits"))
    if any(it.ended is None for it in whole.finding.waits):
        found.append((marks.swatch(whole.colour), whole.lasting))
    return [(PROSE_LETTER * len(name) + 28, form, name, "prose") for form, name in found]


def objects_of(finding):
    """Returns in words what the objects are: those that are made by the same words together."""
    names = {}
    for it in finding.objects:
        first, _, rest = it.partition(" ")
        name, _, words = rest.strip().partition(" ") if first == "object" else ("the object", "", rest)
        names.setdefault(words.strip(), []).append(name)
    return "; ".join(f"{listed(name)}: {words}" for words, name in names.items())


def story(whole):
    """Returns the finding in words."""
    finding = whole.finding
    said = [f"{finding.title}.", *(whole.told_of(it) for it in range(len(finding.commands)))]
    return " ".join([*said, *(f"At the end {name} has {it}." for name, it in finding.values)])


def draw(finding):
    """Returns the picture of a finding."""
    whole = Lanes(finding)
    bands = whole.bands()
    widest = max(sum(whole.widths[start:stop]) for start, stop in bands)
    width = math.ceil(max(whole.left + widest + RIGHT, NARROWEST))
    parts, y = [text(MARGIN, 24, shortened(finding.title, int(width / 9)), "prose head")], 43
    for it in [READING, objects_of(finding)]:
        for words in textwrap.wrap(it, int((width - 2 * MARGIN) / PROSE_LETTER)):
            parts.append(text(MARGIN, y, words, "prose quiet"))
            y += 16
    for start, stop in bands:
        band = Band(whole, start, stop, y + 2)
        parts += band.draw()
        y = band.bottom + 14
    at_the_end, y = values(whole, y, width)
    part, bottom = legend(items(whole), y, width)
    return picture(width, bottom, finding.title, story(whole), "finding", [*parts, *at_the_end, part])
