# SPDX-License-Identifier: MIT
"""Orders of a scene's commands, reported or drawn by lot. Objects don't influence each other, so the commands of an order on one
object are a script of this object alone: pobj carries out these scripts, and GNAT the whole order."""

import dataclasses
import functools
import random

import programs
import scene_program
import scene_text
import text_numbers
import text_report

# How many orders are drawn.
COUNT = 20


@dataclasses.dataclass
class Difference:
    """The step at which pobj and GNAT differ, in what, and what each says."""

    step: int
    what: str
    ours: list
    theirs: list


def of_pobj(file, script):
    """Returns what pobj writes on the script, with GNAT's numbers of calls."""
    try:
        written = text_report.of_pobj(file, script)
    except text_report.NoRunner as none:
        raise programs.Missing("this pobj can't run texts") from none
    except text_report.Refused as why:
        written = f"pobj finds a fault: {why}"
    return text_numbers.as_gnat(script, programs.comparable(written))[1]


def print_steps(steps):
    """Prints the steps as a report does."""
    caller = None
    for step in steps:
        if step.caller != caller:
            print(f"  # {step.caller}")
        caller = step.caller
        print(f"  {step.line}")


class Order:
    """An order of steps."""

    def __init__(self, play, steps):
        self.play, self.steps = play, steps
        self.course, self.unfit = None, None
        try:
            self.course = play.first_course(steps)
        except scene_program.Unfit as why:
            self.unfit = why

    def scripts(self, course):
        """Returns the script of each object, and its text."""
        return [(course.script(place, one), one.file) for place, one in enumerate(self.play.scene.objects)]

    def tries(self):
        """Returns the scripts that pobj is asked for, and their texts."""
        return [] if self.unfit else self.scripts(self.course)

    def told(self, _):
        """Returns the differences between a report and the course: nothing is told of an order that was drawn."""
        return []

    def differences(self, course):
        """Yields the differences of pobj: in the answers to a command, in the queues after it, or in what a report tells."""
        ours = [scene_program.blocks(of_pobj(file, script)) for script, file in self.scripts(course)]
        for part in course.parts:
            one, other = text_report.as_known(next(ours[part.place], []), part.lines)
            if one != other:
                name = self.play.scene.objects[part.place].name
                yield Difference(part.step, f"with the queues {f'of {name} ' if name else ''}after it", one, other)
        yield from self.told(course)

    @functools.cached_property
    def difference(self):
        """The first difference, or None. GNAT is tried again with longer steps of time until there is none."""
        found = Difference(0, "on a machine that is too slow", [], [])
        for time in programs.STEPS:
            course = self.play.course(self.steps, time)
            if course is not None:
                found = min(self.differences(course), key=lambda one: one.step, default=None)
            if found is None:
                break
        return found

    def compare(self):
        """Prints what comes of the comparison, and returns the status."""
        if self.unfit or self.difference is None:
            print(self.unfit or "same")
            return self.unfit.status if self.unfit else 0
        print_steps(self.steps[:self.difference.step + 1])
        print(f"pobj, {self.difference.what}:", *self.difference.ours or ["nothing"], sep="\n  ")
        print(f"GNAT, {self.difference.what}:", *self.difference.theirs or ["nothing"], sep="\n  ")
        return 1


class Reported(Order):
    """An order that is reported. The report tells which callers wait at the end, and may tell answers."""

    def __init__(self, play, script):
        steps, self.waits = scene_text.steps_of(play.scene, script)
        super().__init__(play, steps)

    def told(self, course):
        """Yields the differences between the report and the course."""
        if len(course.waiting) < len(self.steps):
            yield Difference(len(course.waiting), "of this command", ["it is made"], ["its caller's call waits"])
            return
        waits = scene_text.waits_of(self.steps, course.waiting[-1] if self.steps else ())
        if waits != self.waits:
            yield Difference(len(self.steps) - 1, "at the end", sorted(self.waits), sorted(waits))
        if any(step.told for step in self.steps):
            yield from self.answers(course)

    def answers(self, course):
        """Yields the differences in answers. What became of a call of an aborted task, `?`, isn't known."""
        for number, (step, told) in enumerate(zip(self.steps, course.told)):
            if step.told != told and not any(answer.endswith("?") for answer in told):
                yield Difference(number, "told after it", sorted(step.told), sorted(told))


def rest_of(scene, steps, waiting, chance):
    """Returns the rest of an order after the steps, as if the callers that wait then waited on, and no others."""
    made = [step.caller for step in steps]
    left = {name: lines[made.count(name):] for name, lines in scene.callers.items() if name not in waiting}
    found = []
    while ready := [name for name, lines in left.items() if lines]:
        name = chance.choice(ready)
        found.append(scene_text.Step(name, left[name].pop(0)))
    return found


def drawn(play, chance):
    """Returns an order in which each step is drawn among the callers that can make a command. GNAT says which wait: the order
    stands up to the first step after which others wait than before, and its rest is drawn anew."""
    steps, waiting = [], set()
    while rest := rest_of(play.scene, steps, waiting, chance):
        course = play.first_course(steps + rest)
        ends = (number for number in range(len(steps), len(course.waiting)) if course.waiting[number] != waiting)
        last = next(ends, len(course.waiting) - 1)
        steps, waiting = (steps + rest)[:last + 1], course.waiting[last]
    return steps


class Drawn:
    """Orders that are drawn by lot."""

    def __init__(self, play, seed):
        self.seed, self.orders, self.unfit = seed, [], None
        try:
            for place in range(COUNT):
                self.orders.append(Order(play, drawn(play, random.Random(f"{seed} {place}"))))
        except scene_program.Unfit as why:
            self.unfit = why

    def tries(self):
        """Returns the scripts that pobj is asked for, and their texts."""
        return [one for order in self.orders for one in order.tries()]

    def compare(self):
        """Prints what comes of the comparison, and returns the status."""
        if self.unfit:
            print(f"random orders: {self.unfit}")
            return self.unfit.status
        differing = [order for order in self.orders if order.unfit or order.difference]
        print(f"{COUNT - len(differing)} of {COUNT} random orders agree (seed {self.seed})")
        if not differing:
            return 0
        print("the first that doesn't:")
        return differing[0].compare()
