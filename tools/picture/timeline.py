# SPDX-License-Identifier: MIT
"""Draws what a script did as a time line. Each command has a column, and each call a row, from its issue through the queues to its
end. The state after each command is below. If the columns don't fit side by side, the time line goes on in a further band below,
as music does. A band has a row for each call to which something happens in it."""

import math
import textwrap

import marks
from story import Command
from svg import COLOURS, LETTER, MARGIN, PROSE_LETTER, box, legend, line, picture, shortened, tag, text, told

# In pixels: the greatest width of a picture with at most FEW columns, and of one with more; the least width; and the room at the
# right for how a call ended. Then the height of a row, of a bar in it, of a line of words and of a line of the state; and the
# greatest height of all calls at a glance.
WIDEST, WIDEST_OF_MANY, FEW, NARROWEST, RIGHT = 1140, 1400, 40, 560, 112
ROW, BAR, WORDS, STATE, GLANCE = 20, 15, 13, 16, 480
# How many letters of a word, and of a call, are shown at most. Titles have all of them.
MOST_LETTERS, MOST_OF_CALL = 12, 30
ORDINALS = {1: "st", 2: "nd", 3: "rd"}


def parts_of(command):
    """Returns the lines above the column of a command."""
    words = command.words
    if words[0] == "unit":
        rows = words[:-2] + [" ".join(words[-2:])] if "max" in words else words
    elif words[0] == "timed":
        rows = [" ".join(words[:2]), " ".join(words[2:])]
    else:
        rows = [words[0], " ".join(words[1:])]
    split = [it.split(" ") if len(it) > MOST_LETTERS else [it] for it in rows if it]
    return [shortened(word, MOST_LETTERS) for it in split for word in it]


def told_of(command):
    """Returns a command in words: its answer, the calls that it ended, and the state after it."""
    if not command.counts:
        return f"Line {command.line} has a fault: {command.text}. The run ends there."
    said = [f"Line {command.line}: {command.text}.", f"Answer: {command.answer}." if command.answer else ""]
    ends = "; ".join(f"call {number} {how}" for number, how in command.ends)
    said += [f"Calls that end: {ends}." if ends else "", f"After it: {state_of(command)}."]
    return " ".join(it for it in said if it)


def state_of(command):
    """Returns the state after a command in words."""
    waiting = ", ".join(f"{entry} {count}" for entry, count in command.counts.items() if count)
    return f"State {command.state}; {'waiting ' + waiting if waiting else 'no call waits'}; clock {command.clock}"


def ordinal(number):
    """Returns the number as an ordinal."""
    return f"{number}th" if 10 < number % 100 < 20 else f"{number}{ORDINALS.get(number % 10, 'th')}"


def places_of(call):
    """Returns the places of the commands at which something happens to the call."""
    places = [call.begun, call.ended, *call.kept, *(place for stay in call.stays for place in stay[1:])]
    return [it for it in places if it is not None]


def ranges(numbers):
    """Returns the numbers of calls in short form: consecutive ones as a range."""
    runs = []
    for number in numbers:
        if runs and number == runs[-1][1] + 1:
            runs[-1][1] = number
        else:
            runs.append([number, number])
    return ", ".join(f"#{low}" if low == high else f"#{low} to #{high}" for low, high in runs)


class Timeline:
    """What all bands of a picture share."""

    def __init__(self, story):
        self.story = story
        self.columns = list(story.commands)
        if story.fault is not None:
            number, source, wrong = story.fault
            self.columns.append(Command(number, ["", source, wrong], "fault", [], "", {}, ""))
        self.parts = [self.parts_of(it) for it in self.columns]
        self.heads = max(len(it) for it in self.parts)
        self.used = [it for it in story.entries if any(command.counts[it] for command in story.commands)]
        self.timed = any(it.words[0] in ("tick", "timed") for it in story.commands)
        self.left = MARGIN + max([LETTER * self.letters(), 112.0])
        self.column = self.column_width()
        self.touched = [set() for _ in self.columns]
        for call in story.calls.values():
            for place in places_of(call):
                self.touched[place].add(call.number)

    def parts_of(self, column):
        """Returns the lines above a column. Above a fault it is the faulty line, shortened."""
        return parts_of(column) if column.counts else [shortened(column.words[1].strip(" "), MOST_LETTERS)]

    def letters(self):
        """Returns how many letters the longest label of a row has."""
        labels = [len(it.text) for it in self.story.calls.values()] + [len(f"wait on {it}") for it in self.used]
        return min(max(labels, default=0), MOST_OF_CALL) + 1

    def column_width(self):
        """Returns the width of a column, which has room for the words above it, answers, and the names of queues in bars."""
        words = [len(it) for parts in self.parts for it in parts]
        words += [min(len(it.answer), MOST_LETTERS) for it in self.columns]
        return max(LETTER * max(words) + 8, max([len(it) * 6.1 + 18 for it in self.used], default=0), 50.0)

    def colour(self, entry):
        """Returns the class of an entry's colour."""
        return f"c{self.used.index(entry) % len(COLOURS)}"

    def bands(self):
        """Returns the bands, which are about equally long: the first column of each, and the one after its last."""
        columns = len(self.columns)
        room = (WIDEST if columns <= FEW else WIDEST_OF_MANY) - self.left - RIGHT
        fit = columns if columns * self.column <= room else max(int((room - self.lead(1)) / self.column), 1)
        count = math.ceil(columns / fit)
        return [(n * columns // count, (n + 1) * columns // count) for n in range(count)]

    def lead(self, start):
        """Returns the room before the first column of a band, for the names of the queues in which calls wait already."""
        return max([len(it) * 6.1 + 10 for it in self.used], default=0) if start else 0


class Band:
    """One band of a time line, from its upper edge on."""

    def __init__(self, whole, start, stop, top):
        self.whole, self.start, self.stop, self.top = whole, start, stop, top
        self.first = whole.left + whole.lead(start)
        self.right = self.first + (stop - start) * whole.column
        self.answers = top + 24 + WORDS * whole.heads + 3
        self.marks = self.answers + 14
        self.rows_top = self.marks + 11
        self.rows = [whole.story.calls[it] for it in sorted(set().union(*whole.touched[start:stop]))]
        self.groups = self.waiting_all_along()
        self.state_top = self.rows_top + ROW * (len(self.rows) + len(self.groups)) + 4
        self.bottom = self.state_top + STATE * len(self.state_rows()) + 10

    def has(self, place):
        """Whether the command of this place is in the band."""
        return place is not None and self.start <= place < self.stop

    def waiting_all_along(self):
        """Returns for each entry the calls that wait on it from before the band until after it, and that have no row."""
        found, have_rows = {}, {it.number for it in self.rows}
        for call in self.whole.story.calls.values():
            for entry, came, left in call.stays:
                if came < self.start and (left is None or left >= self.stop) and call.number not in have_rows:
                    found.setdefault(entry, []).append(call.number)
        return [(entry, found[entry]) for entry in self.whole.used if entry in found]

    def x(self, place):
        """Returns the middle of a column."""
        return self.first + (place - self.start + 0.5) * self.whole.column

    def y(self, row):
        """Returns the middle of a row."""
        return self.rows_top + (row + 0.5) * ROW

    def state_rows(self):
        """Returns the lines of the state: the name of each, and a function that returns its text for a command."""
        waits = [(f"wait on {it}", lambda command, entry=it: str(command.counts[entry])) for it in self.whole.used]
        clock = [("clock", lambda command: command.clock)] if self.whole.timed else []
        return [*waits, ("State", lambda command: command.state), *clock]

    def draw(self):
        """Returns all parts of the band."""
        places = range(self.start, self.stop)
        parts = [self.stripe(place) for place in places if place % 2 == 0]
        parts += [line(MARGIN, y, self.right, y, "rule") for y in (self.rows_top - 1, self.state_top)]
        parts += [self.labels(), *(self.way(place) for place in places), *(self.head(place) for place in places)]
        parts += [self.row(n, call) for n, call in enumerate(self.rows)]
        parts += [self.group(len(self.rows) + n, *it) for n, it in enumerate(self.groups)]
        return parts

    def stripe(self, place):
        """Returns the stripe that sets off a column from its neighbours."""
        return box(self.x(place) - self.whole.column / 2, self.top, self.whole.column, self.bottom - self.top - 4, "stripe")

    def labels(self):
        """Returns the labels left of the words and left of the state."""
        names = [text(MARGIN, self.top + 11, "line", "prose quiet"), text(MARGIN, self.answers, "answer", "prose quiet")]
        for n, (name, _) in enumerate(self.state_rows()):
            names.append(text(MARGIN, self.state_top + 13 + STATE * n, shortened(name, MOST_OF_CALL), "quiet"))
        return "".join(names)

    def way(self, place):
        """Returns a line from a command to the last call with which it does something."""
        rows = [n for n, call in enumerate(self.rows) if call.number in self.whole.touched[place]]
        return line(self.x(place), self.marks, self.x(place), self.y(rows[-1]), "way") if rows else ""

    def head(self, place):
        """Returns the words of a column, its mark, and the state after its command."""
        command, x = self.whole.columns[place], self.x(place)
        wrong = "" if command.counts else "wrong"
        parts = [box(x - self.whole.column / 2, self.top, self.whole.column, self.bottom - self.top - 4, "hit")]
        parts.append(text(x, self.top + 11, str(command.line), "quiet", "middle"))
        for n, words in enumerate(self.whole.parts[place]):
            parts.append(text(x, self.top + 25 + WORDS * n, words, wrong, "middle"))
        parts.append(text(x, self.answers, shortened(command.answer, MOST_LETTERS), f"new {wrong}".strip(), "middle"))
        mark = marks.OF_COMMANDS.get(command.words[0])
        parts.append(mark(x, self.marks) if mark and not command.answer.startswith("refused") else "")
        parts += self.state(place) if command.counts else []
        return told(told_of(command), *parts, role="graphics-object group")

    def state(self, place):
        """Returns the state after a command. What the command changed is bold."""
        parts = []
        for n, (_, say) in enumerate(self.state_rows()):
            said = say(self.whole.columns[place])
            changed = place == 0 or said != say(self.whole.columns[place - 1])
            y = self.state_top + 13 + STATE * n
            parts.append(text(self.x(place), y, shortened(said, MOST_LETTERS), "new" if changed else "quiet", "middle"))
        return parts

    def row(self, n, call):
        """Returns the row of a call."""
        y = self.y(n)
        parts = [text(MARGIN, y + 4, shortened(call.text, MOST_OF_CALL))]
        parts += [self.bar(call, *stay, y) for stay in call.stays if self.touches(stay)]
        parts += [self.mark(call, "is kept: it isn't cancelled", place, y, marks.kept) for place in call.kept if self.has(place)]
        parts += [text(self.x(place) + 9, y + 4, "kept", "inside") for place in call.kept if self.has(place)]
        if self.has(call.begun) and call.ended != call.begun:
            parts.append(self.mark(call, "is issued", call.begun, y, marks.issued))
        if self.has(call.ended):
            parts.append(self.end(call, y))
        return told(self.told_of(call), *parts, role="graphics-object group")

    def touches(self, stay):
        """Whether a part of the stay is in the band."""
        return stay[1] < self.stop and (stay[2] is None or stay[2] >= self.start)

    def lines(self, came, left):
        """Returns in words from which line to which a stay lasts."""
        first = f"from line {self.whole.columns[came].line}"
        return f"{first} to the end" if left is None else f"{first} to line {self.whole.columns[left].line}"

    def told_of(self, call):
        """Returns a call in words."""
        stays = [f"waits on {entry} {self.lines(came, left)}" for entry, came, left in call.stays]
        stays += [f"is kept at line {self.whole.columns[place].line}" for place in call.kept]
        if call.ended is not None:
            stays.append(f"ends at line {self.whole.columns[call.ended].line}: {call.how}")
        return f"Call {call.text}: " + ", ".join([f"is issued at line {self.whole.columns[call.begun].line}", *stays]) + "."

    def bar(self, call, entry, came, left, y):
        """Returns the bar of a stay in a queue."""
        x1 = self.x(came) if came >= self.start else self.first - self.whole.lead(self.start)
        goes_on = left is None or left >= self.stop
        x2 = self.right if goes_on else self.x(left)
        until = min([self.x(it) for it in call.kept if self.has(it) and it > came], default=x2)
        parts = [box(x1, y - BAR / 2, x2 - x1, float(BAR), f"bar {self.whole.colour(entry)}", 2.0)]
        if until - x1 >= len(entry) * 6.1 + 10:
            parts.append(text(x1 + 7, y + 4, entry, "inside"))
        if goes_on:
            parts.append(self.goes_on(y, "still waits"))
        return told(f"Call {call.number} waits on {entry} {self.lines(came, left)}.", *parts)

    def goes_on(self, y, at_the_end):
        """Returns the text after a wait that goes on: an arrow, or these words in the last band."""
        if self.stop == len(self.whole.columns):
            return text(self.right + 5, y + 4, at_the_end, "halo")
        return text(self.right + 5, y + 4, "→", "quiet")

    def mark(self, call, what, place, y, form):
        """Returns a mark in a row."""
        return told(f"Call {call.number} {what} at line {self.whole.columns[place].line}.", form(self.x(place), y))

    def end(self, call, y):
        """Returns the end of a call, with a ring around it if the call ended at once. If the command ended several calls, it has
        this one's turn among them."""
        x, command = self.x(call.ended), self.whole.columns[call.ended]
        ring = tag("circle", {"cx": x, "cy": y, "r": 8.5, "class": "open"}) if call.ended == call.begun else ""
        number = 1 + [number for number, _ in command.ends].index(call.number)
        turn = f", {ordinal(number)}" if len(command.ends) > 1 else ""
        said = text(x + 12, y + 4, shortened(call.how, 20) + turn, "halo")
        mark = marks.OF_ENDS[call.how.split(" ")[0]](x, y)
        of_all = f"{turn} of {len(command.ends)}" if turn else ""
        return told(f"Call {call.number} ends at line {command.line}: {call.how}{of_all}.", ring, mark, said)

    def group(self, n, entry, numbers):
        """Returns one row for the calls that wait on an entry all along."""
        y, x1 = self.y(n), self.first - self.whole.lead(self.start)
        said = f"{entry}: {ranges(numbers)}"
        fit = int((self.right - x1 - 14) / 6.1)
        bar = box(x1, y - BAR / 2, self.right - x1, float(BAR), f"bar {self.whole.colour(entry)}", 2.0)
        parts = [text(MARGIN, y + 4, f"{len(numbers)} more", "quiet"), bar, text(x1 + 7, y + 4, shortened(said, fit), "inside")]
        parts.append(self.goes_on(y, "still waits" if len(numbers) == 1 else "still wait"))
        return told(f"These wait on {entry} all along: {ranges(numbers)}.", *parts, role="graphics-object group")


def glance(whole, top, width):
    """Returns all bands at a glance: a line for each call. The bands say the same in words."""
    calls, count = list(whole.story.calls.values()), len(whole.columns)
    height = min(max(GLANCE / max(len(calls), 1), 0.25), 4.0)
    step = (width - whole.left - RIGHT) / count
    parts = [text(MARGIN, top + 12, "All calls at a glance", "prose")]
    for n, call in enumerate(calls):
        y, x = top + 22 + n * height, whole.left + call.begun * step
        parts.append(box(x, y, max(step, 1.5), height, "full"))
        for entry, came, left in call.stays:
            first, last = came + (came == call.begun), count if left is None else left
            x1, x2 = whole.left + first * step, whole.left + last * step
            parts.append(box(x1, y, max(x2 - x1, 0.0), height, whole.colour(entry)))
    bottom = top + 22 + len(calls) * height
    for n in range(0, count, max(count // 8, 1)):
        x = whole.left + n * step
        parts += [line(x, top + 20, x, bottom + 4, "rule"), text(x, bottom + 16, f"line {whole.columns[n].line}", "quiet small")]
    for n in range(0, len(calls), max(len(calls) // 8, math.ceil(12 / height))):
        parts.append(text(whole.left - 8, top + 22 + n * height + 5, f"#{calls[n].number}", "quiet small", "end"))
    return tag("g", {"aria-hidden": "true"}, *parts), bottom + 36


def used_marks(whole):
    """Returns the names of the marks that the picture has."""
    calls = whole.story.calls.values()
    names = {it.words[0] for it in whole.columns if not it.answer.startswith("refused")}
    names |= {it.how.split(" ")[0] for it in calls if it.how} | ({"kept"} if any(it.kept for it in calls) else set())
    return (names | ({"call"} if calls else set())) - {"cond", "timed", "unit"}


def items(whole):
    """Returns what the legend has: the colours of entries, and the marks that the picture has."""
    used = used_marks(whole)
    colours = [(LETTER * len(it) + 30, marks.swatch(whole.colour(it)), it, "") for it in whole.used]
    forms = [it for key, it in marks.NAMES.items() if key in used]
    return colours + [(PROSE_LETTER * len(name) + 28, form, name, "prose") for form, name in forms]


def summary(story):
    """Returns in words how many commands and calls there are, and how the calls ended."""
    calls = list(story.calls.values())
    ends = {}
    for call in calls:
        how = call.how.split(" ")[0] or "still waiting"
        ends[how] = ends.get(how, 0) + 1
    told_ends = ", ".join(f"{count} {how}" for how, count in ends.items())
    commands = f"{len(story.commands)} command{'s' * (len(story.commands) != 1)}"
    return f"{commands}, {len(calls)} call{'s' * (len(calls) != 1)}{': ' + told_ends if calls else ''}."


def fault_line(story):
    """Returns the fault in words."""
    number, source, wrong = story.fault
    return f"Line {number} has a fault, {wrong}, and the run ends there: {shortened(source.strip(' '), 60)}"


def draw(story, name):
    """Returns the picture of a story. The name is that of the script's file, or "" if it has none."""
    whole = Timeline(story)
    bands = whole.bands()
    widest = max(whole.left + whole.lead(start) + (stop - start) * whole.column for start, stop in bands)
    width = math.ceil(max(widest + RIGHT, NARROWEST))
    unit = " ".join(story.commands[0].words)
    title = f"{name}: {unit}" if name else unit
    reading = "Time goes from left to right, a column for each command; a row is a call, a bar its wait in a queue."
    prose = [summary(story), reading, *([fault_line(story)] if story.fault else [])]
    parts, y = [text(MARGIN, 24, shortened(title, int(width / 9)), "prose head")], 43
    for it in prose:
        for words in textwrap.wrap(it, int((width - 2 * MARGIN) / PROSE_LETTER)):
            parts.append(text(MARGIN, y, words, "prose wrong" if story.fault and it == prose[-1] else "prose quiet"))
            y += 16
    y += 4
    if len(whole.columns) > FEW:
        part, y = glance(whole, y, width)
        parts.append(part)
    for start, stop in bands:
        band = Band(whole, start, stop, y)
        parts += band.draw()
        y = band.bottom + (20 if stop < len(whole.columns) else 0)
    part, bottom = legend(items(whole), y, width)
    story_in_words = " ".join([f"The time line of a script of {unit}.", *prose])
    return picture(width, bottom, title, story_in_words, "time line", [*parts, part])
