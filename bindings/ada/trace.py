# SPDX-License-Identifier: MIT
"""Shows the record that a program over pobj has written to the file that POBJ_TRACE named; docs/ADA.md has its form.
  trace.py FILE           object by object, with the calls that still wait
  trace.py --all FILE     all events in the order they were noted, with their times
  trace.py --waits FILE   only what waits, since when, and which call or procedure went last through its object
Python's standard library is all it needs. Names come from the program by nm, readelf and addr2line. Called by trace.sh."""

import bisect
import collections
import os
import re
import signal
import struct
import subprocess
import sys
import typing
from dataclasses import dataclass, field

# The head of a file: its form, the slots of the ring, the time of the first object, whether the file took no more, how many slots
# of the ring, and how many of those after it, have been taken.
HEAD = struct.Struct("<8sQQQ32xQ56xQ")
HEAD_BYTES = 4096
FORM = b"pjtrace1"
# A slot: its mark, the task, the time, the object, the exception, the entry, the level of the call, the kind of the event.
SLOT = struct.Struct("<IIQQIHBB")
TEXT = struct.Struct("<I27sB")
# The kinds of a slot of text: the first part of a line, and others.
BEGINS, GOES_ON = 255, 254
KINDS = ("queued", "done", "raised", "requeued", "cancelled", "program_error", "raised STORAGE_ERROR", "procedure", "finalized")
CALLS = KINDS[:7]
THROUGH = ("done", "raised", "requeued", "procedure")
# The body of an entry, as the compiler names it.
BODY = re.compile(r"_E[0-9]+[bs](\.[0-9]+)?$")
# The unit of GNARL's that a procedure calls at its end, as the compiler may put it there.
SERVICE = re.compile(r"/s-tpobop\.adb:")
# A procedure of an object, which locks the object, and what it does at its end.
PROCEDURE = re.compile(r"(?P<type>.+)__(?P<name>[^.A-Z]+)P(__[0-9]+)?(___finalizer(__[0-9]+)?)?(\.[a-z0-9]+)*$")
# What stands between the line that makes an object and its record: unknown code, the runtime, and the types' own initialization.
MAKERS = re.compile(r"\?\?$|system__|pobj_ada_|.*IP(\.[0-9]+)?$")


class Unread(Exception):
    """The file isn't a record, or is damaged."""


class Event(typing.NamedTuple):
    """What happened at which object, when (in nanoseconds), by which task, on which entry, at which level of its calls, the number
    of the exception that was raised, and the address in the code of a procedure."""

    of: "Object"
    time: int
    kind: str
    task: int
    entry: int
    level: int
    exception: int
    code: int


@dataclass
class Object:
    """An object: its number in order of creation, the number of its entries, each body with its first entry, the calls that made it,
    and its events. Then what the program's symbols say: its type, the line that made it, and each body's first entry and name."""

    number: int
    entries: int
    bodies: list
    chain: list = field(default_factory=list)
    events: list = field(default_factory=list)
    type: str = ""
    place: str = ""
    firsts: list = field(default_factory=list)
    names: list = field(default_factory=list)


@dataclass
class Record:
    """A file: the program and the address of its headers, the tasks by number and how they are shown, the exceptions by number, the
    objects and events in order, how many events before these aren't kept, and whether the file took no more. `made_at` has for each
    address the objects that were made there, with how many events were noted before each; `procedures` the types and names of the
    procedures that an address in their code is in."""

    program: str = ""
    headers: int = 0
    tasks: dict = field(default_factory=dict)
    shown: dict = field(default_factory=dict)
    exceptions: dict = field(default_factory=dict)
    objects: list = field(default_factory=list)
    made_at: dict = field(default_factory=lambda: collections.defaultdict(lambda: ([], [])))
    events: list = field(default_factory=list)
    procedures: dict = field(default_factory=dict)
    before: int = 0
    is_cut: bool = False


# What reads a file.

def slots_of(data, first, numbers, ring):
    """Each slot with one of these numbers, in a ring of that many slots or in none: its number, its place, and what it has, or
    None if it isn't complete."""
    for number in numbers:
        place = first + SLOT.size * (number % ring if ring else number)
        if place + SLOT.size > len(data):
            return
        mark, *it = SLOT.unpack_from(data, place)
        yield number, place, it if mark == (2 * number + 1) % 2**32 else None


def bodies_of(words):
    """The first entry and the body's address of each of these words."""
    pairs = (word.split(":") for word in words)
    return [(int(first), int(address, 16)) for first, address in pairs]


def take_line(record, line):
    """Notes what a line of text says."""
    word, _, rest = line.partition(" ")
    if word == "program":
        headers, record.program = rest.split(" ", 1)
        record.headers = int(headers, 16)
    elif word == "task":
        serial, address, name = rest.split(" ", 2)
        record.tasks[int(serial)] = (name, address)
    elif word == "exception":
        number, name = rest.split(" ", 1)
        record.exceptions[int(number)] = name
    else:
        take_object(record, word, rest.split(" "))


def take_object(record, word, words):
    """Notes what a line says about an object: that it is made, more of its bodies, or the calls that made it."""
    sinces, objects = record.made_at[int(words[0], 16)]
    if word == "made":
        sinces.append(int(words[1]))
        objects.append(Object(len(record.objects) + 1, int(words[2]), bodies_of(words[3:])))
        record.objects.append(objects[-1])
    elif word == "more":
        objects[-1].bodies += bodies_of(words[2:])
    elif word == "chain":
        objects[-1].chain = [int(address, 16) for address in words[2:]]


def take_event(record, number, it, start):
    """Notes an event, at the latest object that was made at its address before."""
    task, time, address, exception, entry, level, kind = it
    code = entry << 32 | exception if KINDS[kind] == "procedure" else 0
    sinces, objects = record.made_at[address]
    of = objects[max(0, bisect.bisect_right(sinces, number) - 1)]
    record.events.append(Event(of, time - start, KINDS[kind], task, entry, level, exception, code))
    of.events.append(record.events[-1])


def take_slots(record, data, slots, start):
    """Notes the lines of text and the events of these slots. A line of which a part isn't there is left out: the program ended while
    it wrote that."""
    text = None
    for number, place, it in slots:
        kind = it[-1] if it else None
        if kind is not None and kind < GOES_ON:
            take_event(record, number, it, start)
        elif kind == BEGINS or kind == GOES_ON and text is not None:
            text = (b"" if kind == BEGINS else text) + TEXT.unpack_from(data, place)[1]
        else:
            text = None
        if text is not None and b"\n" in text:
            take_line(record, os.fsdecode(text.split(b"\n")[0]))
            text = None


def read_slots(record, data):
    """Reads all that follows the head: the slots of the ring last, since the lines say what these are about."""
    _, ring, start, is_cut, taken, others = HEAD.unpack_from(data)
    record.is_cut = bool(is_cut)
    record.before = max(0, taken - ring)
    take_slots(record, data, slots_of(data, HEAD_BYTES + SLOT.size * ring, range(others), 0), start)
    take_slots(record, data, slots_of(data, HEAD_BYTES, range(record.before, taken), ring), start)


def read(path):
    """Returns the record in the file."""
    record = Record()
    with open(path, "rb") as file:
        data = file.read()
    if data.startswith(b"program "):
        raise Unread(f"{path} has the form of an older pobj: make the runtime folder again, link the program again and run it")
    if len(data) < HEAD_BYTES or not data.startswith(FORM):
        raise Unread(f"{path} isn't a record of a program over pobj")
    try:
        read_slots(record, data)
    except (ValueError, IndexError) as fault:
        raise Unread(f"the record {path} is damaged: {fault}") from fault
    return record


# What finds names in the program.

def said_by(*words, given=None):
    """What a command writes; nothing, and a warning, if there is no such command."""
    try:
        return subprocess.run(words, input=given, capture_output=True, text=True, errors="replace", check=False).stdout
    except FileNotFoundError:
        print(f"pobj trace: there is no {words[0]}, so names are missing", file=sys.stderr)
        return ""


def shift_of(record):
    """By how much the program's addresses differ from those in its file."""
    for line in said_by("readelf", "-lW", record.program).splitlines():
        words = line.split()
        if words[:1] == ["PHDR"]:
            return record.headers - int(words[2], 16)
    return record.headers


def symbols_of(program):
    """The bodies of entries in the program: their names by their addresses."""
    symbols = {}
    for line in said_by("nm", program).splitlines():
        words = line.split()
        if len(words) == 3 and BODY.search(words[2]):
            symbols[int(words[0], 16)] = BODY.sub("", words[2])
    return symbols


def frames_of(program, addresses):
    """The functions that each address of the program is in, with the line of the source: several, the innermost first, if the
    compiler has put one into another."""
    said = iter(said_by("addr2line", "-afie", program, given="".join(f"{address:#x}\n" for address in addresses)).splitlines())
    frames = {}
    for line in said:
        if line.startswith("0x"):
            frames[int(line, 16)] = inner = []
        else:
            inner.append((line, next(said, "")))
    return frames


def file_and_line(line):
    """The file without its folder, and the line, or nothing if they aren't known."""
    return "" if "?" in line else os.path.basename(line.split(" ")[0])


def place_of(calls, frames):
    """The line that made an object: that of the first of these calls which is neither the runtime's nor the type's own."""
    for address in calls:
        function, line = frames.get(address, [("??", "")])[0]
        if not MAKERS.match(function):
            return file_and_line(line)
    return ""


def place_objects(record, shift):
    """Finds the line of each object whose type has several."""
    of_type = collections.Counter(it.type for it in record.objects)
    several = [it for it in record.objects if it.type and of_type[it.type] > 1]
    # An address in a chain is that of the instruction after the call.
    calls = {it.number: [address - shift - 1 for address in it.chain if address > shift] for it in several}
    frames = frames_of(record.program, list({address for chain in calls.values() for address in chain})) if several else {}
    for it in several:
        it.place = place_of(calls[it.number], frames)


def procedures_of(frames):
    """The type and the name of each procedure of an object among these functions. If there is none, but the compiler has put one
    function into another, the line of the inner one: only the outer one has a name."""
    frames = [(function, line) for function, line in frames if not SERVICE.search(line)]
    found = [PROCEDURE.match(function) for function, _ in frames]
    if any(found):
        return [(it["type"].replace("__", "."), it["name"]) for it in found if it]
    return [("", file_and_line(frames[0][1]))] if len(frames) > 1 else []


def name_procedures(record, shift):
    """Finds the procedures whose calls are noted."""
    # The address is that of the instruction after a call.
    codes = {event.code: event.code - shift - 1 for event in record.events if event.code > shift}
    frames = frames_of(record.program, list(codes.values())) if codes else {}
    record.procedures = {code: procedures_of(frames.get(address, ())) for code, address in codes.items()}


def name_object(it, symbols, shift):
    """Names the object's type and its entries by its bodies."""
    it.firsts = [first for first, _ in it.bodies]
    for _, address in it.bodies:
        of_type, _, name = symbols.get(address - shift, "").rpartition("__")
        it.names.append(name)
        if name:
            it.type = of_type.replace("__", ".")


def name_tasks(record):
    """Names each task: with its address if another task has the same name."""
    same = collections.Counter(name for name, _ in set(record.tasks.values()))
    for serial, (name, address) in record.tasks.items():
        record.shown[serial] = name if same[name] == 1 else f"{name}_{address}"


def give_names(record):
    """Names all tasks, and all objects by the program, if that can be read."""
    symbols, shift = {}, 0
    is_there = os.access(record.program, os.R_OK)
    if is_there:
        symbols, shift = symbols_of(record.program), shift_of(record)
    for it in record.objects:
        name_object(it, symbols, shift)
    if is_there:
        place_objects(record, shift)
        name_procedures(record, shift)
    name_tasks(record)


def entry_of(it, number):
    """The entry of the object: its name, or its number if the program has no names; in a family also the position."""
    at = bisect.bisect_right(it.firsts, number) - 1
    if at < 0 or not it.names[at]:
        return f"entry {number}"
    after = it.firsts[at + 1] if at + 1 < len(it.firsts) else it.entries + 1
    return f"{it.names[at]}(#{number - it.firsts[at] + 1})" if after - it.firsts[at] > 1 else it.names[at]


# What the record says.

def title_of(it):
    """The object's number and type."""
    return ", ".join(filter(None, (f"object {it.number}", it.type, it.place)))


def task_of(record, event):
    """The task's name, or nothing if the event has none."""
    return record.shown.get(event.task, "")


def procedure_of(record, event):
    """The procedure that was called: its name or line, or nothing."""
    return next((name for of_type, name in record.procedures.get(event.code, ()) if of_type in ("", event.of.type)), "")


def where_of(record, event):
    """The entry or the procedure of an event, if it has one."""
    return entry_of(event.of, event.entry) if event.kind in CALLS else procedure_of(record, event)


def what_of(record, event):
    """What the event says, in words."""
    return f"raised {record.exceptions.get(event.exception, '')}" if event.kind == "raised" else event.kind


def line_of(record, event):
    """The task, the entry, and what the event says."""
    return f"  {task_of(record, event):<24}  {where_of(record, event):<16}  {what_of(record, event)}"


def waiting_of(it):
    """The calls that wait on the object at the end, in the order in which they were queued."""
    waits = {}
    for event in it.events:
        if event.kind in CALLS:
            waits.pop((event.task, event.level), None)
        if event.kind == "queued":
            waits[event.task, event.level] = event
    return list(waits.values())


def seconds(time):
    """The time in seconds, with microseconds."""
    return f"{time // 1000 / 1e6:.6f}"


def show_limits(record):
    """Says what the record doesn't have."""
    if record.before:
        print(f"{record.before} events before these aren't kept")
    if record.is_cut:
        print("the record ends before the program did: the file took no more")


def show_object(record, it):
    """Shows the events of an object, and what waits on it."""
    print(title_of(it))
    for event in it.events:
        print(line_of(record, event))
    waiting = waiting_of(it)
    for event in waiting:
        print(f"  {task_of(record, event)} waits on {where_of(record, event)}")
    if not waiting:
        print("  nothing waits")


def show_objects(record):
    """Shows the record object by object. If events aren't kept, objects without any are left out."""
    for it in record.objects:
        if it.events or not record.before:
            show_object(record, it)


def show_all(record):
    """Shows all events in the order they were noted."""
    width = max((len(title_of(it)) for it in record.objects), default=0)
    for event in record.events:
        print(f"{seconds(event.time):>14}  {title_of(event.of):<{width}}{line_of(record, event)}")


def show_last(record, it):
    """Shows what went last through the object."""
    through = [event for event in it.events if event.kind in THROUGH]
    if not through:
        print("  nothing went through it before" + (", as far as is kept" if record.before else ""))
        return
    last = through[-1]
    where = where_of(record, last)
    how = f"{where}, {what_of(record, last)}" if where else "a procedure"
    print(f"  last through it: {task_of(record, last)}, {how}, at {seconds(last.time)}")


def show_waits(record):
    """Shows what waits, object by object, and what went last through each of these."""
    if record.before and record.events:
        print(f"a call that was queued before {seconds(record.events[0].time)} isn't shown")
    some = False
    for it in record.objects:
        for event in waiting_of(it):
            some = True
            since = f"{seconds(event.time)} ({seconds(record.events[-1].time - event.time)} before the last event)"
            print(f"{task_of(record, event)} waits on {where_of(record, event)} of {title_of(it)}, since {since}")
        if waiting_of(it):
            show_last(record, it)
    if not some:
        print("nothing waits")


VIEWS = {"--all": show_all, "--waits": show_waits}


def fail(text):
    """Says what is wrong, and ends."""
    print(f"pobj trace: {text}", file=sys.stderr)
    sys.exit(4)


def main(words):
    """Carries out the words of the command line, which trace.sh has read."""
    signal.signal(signal.SIGPIPE, signal.SIG_DFL)
    try:
        record = read(words[-1])
        give_names(record)
        show_limits(record)
        VIEWS.get(words[0], show_objects)(record)
        sys.stdout.flush()
    except Unread as fault:
        fail(fault)
    except OSError as fault:
        sys.stdout = None
        fail(f"{fault.strerror}: {fault.filename or 'what is shown'}")


if __name__ == "__main__":
    main(sys.argv[1:])
