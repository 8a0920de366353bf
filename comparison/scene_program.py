# SPDX-License-Identifier: MIT
"""Has GNAT carry out a scene's commands in an order: one program with all objects, and a task for each caller. For Commands of
comparison/ada the order is translated: `by CALLER OBJECT` comes before each command, and `show` after it."""

import functools
import re

import programs
import scene_text
import texts

# A line of the program with the number of a call, and the end of a call by an exception.
NUMBERED = re.compile(r"(#|next |! |)([0-9]+)(.*)")
RAISED = re.compile(r"([0-9]+) raised .*")


class Unfit(programs.Failed):
    """GNAT's program gives no answer to an order. The status is that of a comparison that ends so."""

    def __init__(self, why, status):
        super().__init__(why)
        self.status = status


def is_note(line):
    """Returns whether the program wrote the line at its end: the words of an answer, or that a body ended a call."""
    return line.startswith(("= ", "! "))


def blocks(lines):
    """Yields the lines up to each line `next N`, and those after the last one."""
    block = []
    for line in lines:
        block.append(line)
        if line.startswith("next "):
            yield block
            block = []
    if block:
        yield block


class Written:
    """What the program wrote, object by object. It numbers all calls; here the calls on each object have numbers of their own."""

    def __init__(self, count, parts, lines):
        # By object its lines, and how many calls it has.
        self.lines, self.made = [[] for _ in range(count)], [0] * count
        # By the program's number a call's object and own number, and by these its caller.
        self.calls, self.callers = {}, {}
        for part, block in zip(parts, blocks(line for line in lines if not is_note(line))):
            for line in block:
                self.take(part, line)
        for line in filter(is_note, lines):
            self.note(line)

    def issue(self, part, number):
        """Takes the program's number of a new call."""
        self.made[part.place] += 1
        call = part.place, str(self.made[part.place])
        self.calls[number], self.callers[call] = call, part.caller

    def own(self, place, line):
        """Returns the place of the object that the line is about, and the line with the call's own number."""
        numbered = NUMBERED.fullmatch(line)
        if numbered is None:
            return place, line
        before, number, after = numbered.groups()
        if before == "next ":
            return place, f"next {self.made[place] + 1}"
        place, own = self.calls[number]
        return place, f"{before}{own}{after}"

    def take(self, part, line):
        """Takes a line that was written at the part's command."""
        if line.startswith("#"):
            self.issue(part, line[1:])
        place, line = self.own(part.place, line)
        self.lines[place].append(line)

    def note(self, line):
        """Takes a line from the end. Any object may have the answer."""
        if line.startswith("! "):
            place, line = self.own(0, line)
            self.lines[place].append(line)
        else:
            for lines in self.lines:
                lines.append(line)


class Course:
    """What came of an order: the parts that were carried out, which callers wait after each step, and what a report tells of it."""

    def __init__(self, callers, failed):
        # The caller of each call, and the calls whose preconditions failed, which have no number for pobj.
        self.callers, self.failed = callers, failed
        self.parts, self.waiting, self.told = [], [], []
        # The calls that wait.
        self.calls = set()

    def add(self, parts):
        """Adds a step that has these parts."""
        possible = [part for part in parts if self.can_be(part)]
        self.parts += possible
        self.told.append({answer for part in possible for answer in self.answers(part)} - {"done"})
        self.waiting.append({self.callers[call] for call in self.calls})

    def can_be(self, part):
        """Returns whether the part's command is possible. An `abort` is, if that caller's call waits, and becomes a `cancel`."""
        kind, *words = part.command.split(" ")
        if kind != "abort":
            return True
        numbers = [int(own) for place, own in self.calls if (place, self.callers[place, own]) == (part.place, words[0])]
        for number in numbers:
            unnumbered = sum(place == part.place and int(own) < number for place, own in self.failed)
            part.command = f"cancel {number - unnumbered}"
        return bool(numbers)

    def answers(self, part):
        """Yields what a report tells of the answers to the part's command, and notes which calls wait."""
        own = ""
        for line in part.lines:
            first, _, answer = line.partition(" ")
            if line.startswith("#"):
                own = line[1:]
                self.calls.add((part.place, own))
            elif first.isdigit():
                self.calls.discard((part.place, first))
                yield answer if first == own else f"{self.callers[part.place, first]} goes on: {answer}"
            elif first in ("done", "value", "raised"):
                yield line
            elif line == "refused 7":
                yield "program_error"

    def script(self, place, one):
        """Returns the script of the object of that place alone, with a `show` after each command. A comment names its text."""
        commands = "".join(f"{part.command}\nshow\n" for part in self.parts if part.place == place)
        return f"# {one.file}\n{one.line}\n{commands}"


class Play:
    """A scene that GNAT carries out."""

    def __init__(self, scene):
        self.scene, self.names = scene, list(scene.callers)
        files = list(dict.fromkeys(one.file for one in scene.objects))
        self.texts = dict(zip(files, texts.build_all(files, [file.stem for file in files])))

    @functools.cached_property
    def translations(self):
        """The translation of scripts for each object."""
        found = [texts.Translation(self.texts[one.file], one.line) for one in self.scene.objects]
        for one in found:
            if one.shape.unmade:
                raise texts.NotExpressible(f"the object can't be made: {one.shape.unmade}")
        return found

    def line(self, part, number):
        """Returns the line with that number, for the part's command."""
        kind, *words = part.command.split(" ")
        if kind == "abort":
            return f"abort {self.names.index(words[0]) + 1}"
        return self.translations[part.place].line(number, part.command)

    def script(self, parts):
        """Returns the script for Commands."""
        lines = [translation.first_line() for translation in self.translations]
        for part in parts:
            lines.append(f"by {self.names.index(part.caller) + 1} {part.place + 1}")
            lines += [self.line(part, len(lines) + 1), "show"]
        return "".join(f"{line}\n" for line in lines)

    def run(self, parts, time):
        """Returns what the program writes at the parts' commands, or None if the machine was too slow for this step of time."""
        try:
            ended = texts.run(next(iter(self.texts.values())), str(time), self.script(parts))
        except texts.NotExpressible as why:
            raise Unfit(f"not expressible: {why}", 0) from why
        except texts.Fault as fault:
            raise Unfit(f"pobj carries out what has a fault for GNAT's program: {fault}", 1) from fault
        except programs.Failed as why:
            raise Unfit(f"GNAT gives no answer: {why}", 4) from why
        return ended.stdout if ended.returncode == 0 or "never woken" in ended.stdout else None

    def answer(self, parts, written):
        """Gives the parts their lines, in words. Returns the calls whose preconditions failed: those that raised in no body."""
        failed = []
        for place, translation in enumerate(self.translations):
            answers = texts.Answers(translation, "\n".join(written.lines[place]))
            lines = answers.lines()
            for part, block in zip((part for part in parts if part.place == place), blocks(lines)):
                part.lines = block
            raised = [line[1] for line in map(RAISED.fullmatch, lines) if line]
            failed += [(place, own) for own in raised if own not in answers.ended]
        return failed

    def course(self, steps, time):
        """Returns the course of the steps, up to the first command of a caller whose call waits, or None if the machine was too slow
        for this step of time."""
        parts = list(scene_text.parts_of(self.scene, steps))
        text = self.run(parts, time)
        if text is None:
            return None
        written = Written(len(self.scene.objects), parts, text.splitlines())
        course = Course(written.callers, self.answer(parts, written))
        for its_parts in scene_text.by_step(steps, parts):
            if not all(part.lines for part in its_parts):
                break
            course.add(its_parts)
        return course

    def first_course(self, steps):
        """Returns the course of the steps with the shortest step of time for which the machine isn't too slow."""
        for time in programs.STEPS:
            course = self.course(steps, time)
            if course is not None:
                return course
        raise Unfit("GNAT gives no answer: this machine is too slow", 4)
