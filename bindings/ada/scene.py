# SPDX-License-Identifier: MIT
"""Makes a scene for `pobj explore` of a record that a program over pobj has written: the objects that tasks called, and each task
with its commands in order. Comments say what is to be added, since the record doesn't have it.
  scene.py FILE
What a scene has no room for is left out, and said on standard error. Called by trace.sh."""

import collections
import itertools
import re
import signal
import sys
from dataclasses import dataclass

sys.dont_write_bytecode = True

import trace

# How much a scene has at most (docs/EXPLORE.md), and how many letters of a name are kept, so that there is room for a number.
MOST_OBJECTS, MOST_CALLERS, MOST_COMMANDS, MOST_LETTERS = 16, 64, 1_000, 27
# A call is taken for a conditional one if it was cancelled at most this many nanoseconds after it was queued, and nothing happened
# in its object in between.
AT_ONCE = 1_000_000
# What stands in a scene beside commands.
OVERLAPS = "# its task made the next command while an earlier call waited, as in a select; a caller can't"
WAITS = "# the last call waits at the end of the record"
LATER = "# %d later commands are left out"
# What a reader has to do, and whether a scene with these lines needs it.
TO_DO = [
    ("put the file of each object's Ada text in place of the one that is named, with its discriminants", ""),
    ("write names as the text does; here each word has a capital, as is usual", ""),
    ("add the values of parameters", ""),
    ("add calls of functions, and of objects without entries, if they matter", ""),
    ("write the index of a family's entry in place of the position, which is from 1 on", r"^  [a-z0-9 ]+ \w+\.\w+\("),
    ("look at each `timed`: the call waited and was cancelled, by its time, an abort or a select", r"^  timed "),
]


@dataclass
class Command:
    """A command of a task: its object, the operation, and how it is called; whether the task made it while another call of its
    waited. While a call waits, `queued` has the time since when, and how many events its object had then."""

    of: trace.Object
    operation: str
    verb: str = "call"
    overlaps: bool = False
    queued: tuple = None


class Tasks:
    """The commands of each task in order, by its number. `unnamed` counts calls of procedures whose names aren't known."""

    def __init__(self, record):
        self.record, self.commands, self.unnamed = record, collections.defaultdict(list), 0
        self.counts, self.open = collections.Counter(), collections.defaultdict(dict)
        for event in record.events:
            self.counts[event.of.number] += 1
            if event.kind == "procedure":
                self.take_procedure(event)
            elif event.kind in trace.CALLS:
                self.take_call(event)

    def add(self, event, operation, verb):
        """Adds a command of the event's task."""
        overlaps = any(call.queued for call in self.open[event.task].values())
        self.commands[event.task].append(Command(event.of, operation, verb, overlaps))
        return self.commands[event.task][-1]

    def take_procedure(self, event):
        """Takes a call of a procedure. If its name isn't known, only its line may be."""
        name = trace.procedure_of(self.record, event)
        if name and ":" not in name:
            self.add(event, written(name), "proc")
        else:
            self.unnamed += 1

    def take_call(self, event):
        """Takes an event of a call: of the task's open call at this level, or of a new one. A requeued call stays open."""
        call = self.open[event.task].pop(event.level, None)
        if call is None or call.queued and event.kind == "queued":
            call = self.add(event, operation_of(event), "call")
        if event.kind == "cancelled":
            call.verb = "cond" if self.is_at_once(call, event) else "timed"
        call.queued = (event.time, self.counts[event.of.number]) if event.kind == "queued" else None
        if event.kind in ("queued", "requeued"):
            self.open[event.task][event.level] = call

    def is_at_once(self, call, event):
        """Whether the call was cancelled when it had just been queued, or before."""
        return not call.queued or (event.time - call.queued[0] <= AT_ONCE and self.counts[event.of.number] == call.queued[1] + 1)


def written(name):
    """The name with a capital at the beginning of each word, and an underscore in place of what no name has."""
    return "_".join(word[:1].upper() + word[1:] for word in re.split(r"[^A-Za-z0-9]+", name) if word)


def operation_of(event):
    """The entry of an event. All that is known of a family's index is the position."""
    name, _, position = trace.entry_of(event.of, event.entry).partition("(#")
    return written(name) + (position and f"({position}")


def distinct(names, other):
    """A name of a scene for each of these, with a number if several are the same. The other word comes before one without a letter."""
    words = [word if word[:1].isalpha() else f"{other}_{word}".rstrip("_") for word in map(written, names)]
    words = [word[:MOST_LETTERS] for word in words]
    counts = collections.Counter(words)
    used = {word for word, count in counts.items() if count == 1}
    found = []
    for word in words:
        if counts[word] > 1:
            word = next(it for number in itertools.count(1) if (it := f"{word}_{number}") not in used)
            used.add(word)
        found.append(word)
    return found


def say(text):
    """Says what the scene doesn't have."""
    print(f"pobj trace: {text}", file=sys.stderr)


def chosen(found, waiting, most, what):
    """At most this many of those found, in their order. If there are more, it has those first on which a call waits, or that wait."""
    if len(found) > most:
        say(f"a scene has at most {most} {what}: {len(found) - most} others are left out")
    kept = set(sorted(found, key=lambda it: it not in waiting)[:most])
    return [it for it in found if it in kept]


def choose_objects(tasks):
    """The objects that the scene has, in order. The commands on others are taken away."""
    objects = {call.of.number: call.of for calls in tasks.commands.values() for call in calls}
    waiting = {call.of.number for calls in tasks.commands.values() for call in calls if call.queued}
    kept = chosen(sorted(objects), waiting, MOST_OBJECTS, "objects")
    for calls in tasks.commands.values():
        calls[:] = [call for call in calls if call.of.number in kept]
    return [objects[number] for number in kept]


def choose_callers(tasks):
    """The tasks that are callers of the scene, by their numbers, and the names of these. One caller more may raise the time."""
    found = [task for task, calls in tasks.commands.items() if calls]
    waiting = {task for task in found if any(call.queued for call in tasks.commands[task])}
    is_timed = any(call.verb == "timed" for task in found for call in tasks.commands[task])
    kept = chosen(found, waiting, MOST_CALLERS - is_timed, "tasks")
    shown = distinct([tasks.record.tasks.get(task, ("", ""))[0] for task in kept], "Task")
    more = {name: len(tasks.commands[task]) - MOST_COMMANDS for task, name in zip(kept, shown)}
    if any(count > 0 for count in more.values()):
        left = ", ".join(f"{count} of {name}" for name, count in more.items() if count > 0)
        say(f"a caller has at most {MOST_COMMANDS} commands, so later ones are left out: {left}")
    return dict(zip(kept, shown))


def repeated(lines):
    """The lines of a caller, as few as there can be: if they end with a repetition, it is written once, below `repeat`."""
    fewest = lines
    for size in range(1, len(lines) // 2 + 1):
        if size + 1 >= len(fewest):
            break
        run = size
        while run < len(lines) and lines[-run - 1] == lines[size - run - 1]:
            run += 1
        times = run // size
        once = [*lines[: len(lines) - times * size], f"repeat {times}", *lines[-size:]]
        if len(once) < len(fewest):
            fewest = once
    return fewest


def lines_of(calls, names):
    """The lines of a caller. If there are too many commands, it has the first ones."""
    lines = []
    for call in calls[:MOST_COMMANDS]:
        verb = "timed 1" if call.verb == "timed" else call.verb
        line = f"{verb} {names[call.of.number]}.{call.operation}"
        lines.append(f"{OVERLAPS}\n  {line}" if call.overlaps else line)
    more = len(calls) - len(lines)
    return repeated(lines) + ([LATER % more] if more else [WAITS] if calls[-1].queued else [])


def simple_name(of):
    """The last part of the name of an object's type, or the object's number."""
    return of.type.rpartition(".")[2] or f"object_{of.number}"


def object_lines(objects, names):
    """The lines of the objects. A file is named as the object's type, which is all that is known."""
    for of in objects:
        yield f"# {trace.title_of(of)}"
        yield f'object {names[of.number]} file "{simple_name(of)}.adb"'


def caller_lines(tasks, callers, names):
    """The lines of the callers. If a call is timed, one caller more raises the time."""
    for task, name in callers.items():
        yield f"caller {name}"
        yield from (f"  {line}" for line in lines_of(tasks.commands[task], names))
    if any(call.verb == "timed" for task in callers for call in tasks.commands[task]):
        yield f"caller {distinct([*callers.values(), 'Clock'], '')[-1]}"
        yield "  tick 1"


def scene_of(tasks):
    """The text of the scene."""
    objects = choose_objects(tasks)
    callers = choose_callers(tasks)
    if not callers:
        trace.fail("the record has no calls that a scene can have")
    names = dict(zip([of.number for of in objects], distinct(map(simple_name, objects), "Object")))
    scene = "\n".join([*object_lines(objects, names), *caller_lines(tasks, callers, names)])
    to_do = [f"# - {what}" for what, needs in TO_DO if re.search(needs, scene, re.MULTILINE)]
    return "\n".join(["# What tasks called, by a record of POBJ_TRACE. Before this is explored:", *to_do, scene])


def say_limits(tasks):
    """Says what the record doesn't have, or has without a name."""
    if tasks.record.before:
        say(f"{tasks.record.before} events before these aren't kept, so the scene begins in the middle")
    if tasks.record.is_cut:
        say("the record ends before the program did: the file took no more")
    if tasks.unnamed:
        say(f"calls of procedures without a name are left out: {tasks.unnamed}")


def main(path):
    """Prints the scene of the record in this file."""
    signal.signal(signal.SIGPIPE, signal.SIG_DFL)
    try:
        record = trace.read(path)
        trace.give_names(record)
        tasks = Tasks(record)
        say_limits(tasks)
        print(scene_of(tasks))
        sys.stdout.flush()
    except trace.Unread as fault:
        trace.fail(fault)
    except OSError as fault:
        sys.stdout = None
        trace.fail(f"{fault.strerror}: {fault.filename or 'what is shown'}")


if __name__ == "__main__":
    main(sys.argv[1])
