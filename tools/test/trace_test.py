# SPDX-License-Identifier: MIT
"""Tests of bindings/ada/trace.py on made-up records: what each view shows of calls, procedures, families, exceptions, requeues,
several objects and tasks of one name, records of the last events, and files that are damaged. The last line is 'N passed, M failed'."""

import contextlib
import io
import pathlib
import sys
import tempfile
import unittest

sys.dont_write_bytecode = True
sys.path.insert(0, str(pathlib.Path(__file__).resolve().parents[2] / "bindings/ada"))

import counted
import trace

# What nm, readelf and addr2line say of a program that is loaded at 0x1000 more than its file says.
SAID = {
    "readelf": "  PHDR           0x000040 0x0000000000000040 0x0000000000000040 0x000310 0x000310 R   0x8\n",
    "nm": "0000000000000100 t shop__store__put_E3b.1\n0000000000000200 t shop__store__get_E4b\n0000000000000200 T shop__other\n",
    "addr2line": "",
}
PUT, GET, UNKNOWN = 0x1100, 0x1200, 0x1300
# What addr2line says of addresses in the code of procedures: one of the type, one of another type, and two that the compiler has put
# into other functions, of which the second has a name of its own. In the third GNARL's unit is there, too.
CODE = {
    0x400: [("shop__store__close_allP__2___finalizer__3.17", "/src/shop.adb:30")],
    0x410: [("shop__till__emptyP", "/src/shop.adb:40")],
    0x420: [("main__work", "/lib/s-tpobop.adb:837"), ("main__work", "/src/shop.adb:50 (discriminator 1)"), ("main__work", "/src/main.adb:7")],
    0x430: [("shop__store__openP.constprop.0", "/src/shop.adb:60"), ("main__work", "/src/main.adb:8")],
    0x440: [("main__work", "/src/main.adb:9")],
    0x450: [("??", "??:0"), ("??", "??:0")],
}


class Writer:
    """Puts a record together, as a program does."""

    def __init__(self, ring=0, program=sys.executable):
        self.ring, self.taken, self.kept, self.slots, self.time = ring, 0, {}, [], 5_000
        self.is_cut = 0
        self.line(f"program {0x1040:016x} {program}")

    def mark(self, number):
        """The mark of a complete slot."""
        return (2 * number + 1) % 2**32

    def line(self, text):
        """Writes a line of text."""
        text = text.encode() + b"\n"
        for at in range(0, len(text), 27):
            kind = trace.GOES_ON if at else trace.BEGINS
            self.slots.append(trace.TEXT.pack(self.mark(len(self.slots)), text[at:at + 27], kind))

    def make(self, address, entries, *bodies, chain=()):
        """Makes an object."""
        since = self.taken if self.ring else len(self.slots)
        words = "".join(f" {first}:{body:016x}" for first, body in bodies)
        self.line(f"made {address:016x} {since} {entries}{words}")
        self.line(f"chain {address:016x} {since}" + "".join(f" {call:016x}" for call in chain))

    def task(self, serial, name, address=None):
        """Describes a task."""
        self.line(f"task {serial} {address or serial:016x} {name}")

    def note(self, kind, address, task, entry=0, level=1, exception=0, code=0):
        """Writes an event, a millisecond and a nanosecond after the one before. A procedure has an address in its code."""
        entry, exception = entry | code >> 32, exception | code & 0xFFFFFFFF
        self.time += 1_000_001
        number = self.taken if self.ring else len(self.slots)
        slot = trace.SLOT.pack(self.mark(number), task, self.time, address, exception, entry, level, trace.KINDS.index(kind))
        if self.ring:
            self.kept[number % self.ring] = slot
            self.taken += 1
        else:
            self.slots.append(slot)

    def file(self):
        """All bytes of the file."""
        head = trace.HEAD.pack(trace.FORM, self.ring, 5_000, self.is_cut, self.taken, len(self.slots))
        ring = b"".join(self.kept.get(at, bytes(32)) for at in range(self.ring))
        return head.ljust(trace.HEAD_BYTES, b"\0") + ring + b"".join(self.slots) + bytes(320)


def store(ring=0):
    """A record with an object of two entries at 16, and two tasks."""
    it = Writer(ring)
    it.make(16, 2, (1, PUT), (2, GET))
    it.task(101, "one")
    it.task(102, "two")
    return it


class Trace(unittest.TestCase):
    """What is shown of made-up records."""

    def setUp(self):
        self.folder = tempfile.TemporaryDirectory()
        self.path = pathlib.Path(self.folder.name) / "record"
        self.said = dict(SAID)
        self.before, trace.said_by = trace.said_by, lambda command, *words, given=None: self.said[command]

    def tearDown(self):
        trace.said_by = self.before
        self.folder.cleanup()

    def say_frames(self, frames):
        """Has addr2line say what these addresses are in."""
        def said_by(command, *words, given=None):
            return self.said[command] + "".join(
                f"{address}\n" + "".join(f"{function}\n{line}\n" for function, line in frames.get(int(address, 16), [("??", "??:0")]))
                for address in (given or "").split())
        trace.said_by = said_by

    def shown(self, content, *words):
        """The lines that the words of the command line show of these bytes."""
        self.path.write_bytes(content)
        with contextlib.redirect_stdout(io.StringIO()) as out:
            trace.main([*words, str(self.path)])
        return out.getvalue().splitlines()

    def refused(self, content):
        """What is said of a file that can't be shown."""
        with contextlib.redirect_stderr(io.StringIO()) as out, self.assertRaises(SystemExit) as ended:
            self.shown(content)
        self.assertEqual(ended.exception.code, 4)
        return out.getvalue()

    def test_shows_calls_object_by_object(self):
        it = store()
        it.make(32, 1, (1, UNKNOWN))
        it.note("queued", 16, 101, 2)
        it.note("done", 32, 102, 1)
        it.note("procedure", 16, 102)
        it.note("done", 16, 101, 2)
        it.note("queued", 16, 102, 2)
        it.note("finalized", 32, 0)
        self.assertEqual(self.shown(it.file()), [
            "object 1, shop.store",
            "  one                       get               queued",
            "  two                                         procedure",
            "  one                       get               done",
            "  two                       get               queued",
            "  two waits on get",
            "object 2",
            "  two                       entry 1           done",
            "                                              finalized",
            "  nothing waits"])

    def test_shows_all_in_order_with_times(self):
        it = store()
        it.make(32, 1, (1, UNKNOWN))
        it.note("queued", 16, 101, 2)
        it.note("done", 32, 102, 1)
        it.note("procedure", 16, 102)
        self.assertEqual(self.shown(it.file(), "--all"), [
            "      0.001000  object 1, shop.store  one                       get               queued",
            "      0.002000  object 2              two                       entry 1           done",
            "      0.003000  object 1, shop.store  two                                         procedure"])

    def test_shows_what_waits_and_what_went_last_through(self):
        it = store()
        it.make(32, 1, (1, UNKNOWN))
        it.note("procedure", 16, 102)
        it.note("queued", 16, 101, 2)
        it.note("queued", 16, 102, 1)
        it.note("done", 32, 101, 1)
        self.assertEqual(self.shown(it.file(), "--waits"), [
            "one waits on get of object 1, shop.store, since 0.002000 (0.002000 before the last event)",
            "two waits on put of object 1, shop.store, since 0.003000 (0.001000 before the last event)",
            "  last through it: two, a procedure, at 0.001000"])

    def test_says_that_nothing_waits(self):
        it = store()
        it.note("queued", 16, 101, 2)
        it.note("cancelled", 16, 101, 2)
        self.assertEqual(self.shown(it.file(), "--waits"), ["nothing waits"])

    def test_says_that_nothing_went_through(self):
        it = store()
        it.note("queued", 16, 101, 2)
        self.assertEqual(self.shown(it.file(), "--waits")[1:], ["  nothing went through it before"])

    def test_shows_the_exception_that_went_last_through(self):
        it = store()
        it.line("exception 77 SHOP.CLOSED")
        it.note("raised", 16, 101, 1, exception=77)
        it.note("queued", 16, 101, 2)
        self.assertEqual(self.shown(it.file(), "--waits")[1:], ["  last through it: one, put, raised SHOP.CLOSED, at 0.001000"])

    def test_each_end_of_a_call_ends_its_wait(self):
        for kind in trace.CALLS[1:]:
            it = store()
            it.note("queued", 16, 101, 2)
            it.note(kind, 16, 101, 2)
            self.assertEqual(self.shown(it.file(), "--waits"), ["nothing waits"], kind)

    def test_calls_of_one_task_at_two_levels_wait_apart(self):
        it = store()
        it.note("queued", 16, 101, 2, level=1)
        it.note("queued", 16, 101, 1, level=2)
        it.note("done", 16, 101, 1, level=2)
        self.assertEqual(self.shown(it.file())[-1], "  one waits on get")

    def test_a_requeued_call_waits_on_the_other_object(self):
        it = store()
        it.make(32, 1, (1, UNKNOWN))
        it.note("requeued", 16, 101, 1)
        it.note("queued", 32, 101, 1)
        self.assertEqual([line for line in self.shown(it.file()) if "waits" in line], ["  nothing waits", "  one waits on entry 1"])

    def test_shows_members_of_a_family_by_position(self):
        it = Writer()
        it.make(16, 5, (1, PUT), (4, GET))
        it.task(101, "one")
        for entry in range(1, 6):
            it.note("done", 16, 101, entry)
        self.assertEqual([line.split()[1] for line in self.shown(it.file())[1:-1]], ["put(#1)", "put(#2)", "put(#3)", "get(#1)", "get(#2)"])

    def test_reads_bodies_of_several_lines(self):
        it = Writer()
        it.make(16, 2, (1, PUT))
        it.line(f"more {16:016x} 0 2:{GET:016x}")
        it.note("done", 16, 101, 2)
        self.assertIn(" get ", self.shown(it.file())[1])

    def test_gives_the_addresses_of_tasks_of_one_name(self):
        it = store()
        it.task(103, "one", 0xABC)
        it.task(103, "one", 0xABC)
        it.task(104, "a name")
        for task in (101, 103, 104):
            it.note("procedure", 16, task)
        self.assertEqual([line[2:26].strip() for line in self.shown(it.file())[1:-1]],
                         ["one_0000000000000065", "one_0000000000000abc", "a name"])

    def test_tells_objects_of_one_type_apart_by_the_line_that_made_them(self):
        it = store()
        it.make(32, 2, (1, PUT), (2, GET), chain=(0x7000_1000, 0x1501, 0x1601, 0x1701))
        it.make(48, 2, (1, PUT), (2, GET), chain=(0x1501, 0x1801, 0x1701))
        it.make(64, 2, (1, UNKNOWN))
        self.say_frames({0x500: [("shop__storeVIP", "??:?")], 0x600: [("shop___elabb", "/src/shop.adb:12 (discriminator 2)")],
                         0x700: [("main", "/src/b~main.adb:1")], 0x800: [("shop__openP", "??:?")]})
        self.assertEqual([line for line in self.shown(it.file()) if line.startswith("object")],
                         ["object 1, shop.store", "object 2, shop.store, shop.adb:12", "object 3, shop.store", "object 4"])

    def test_names_procedures(self):
        it = store()
        self.say_frames(CODE)
        for address in CODE:
            it.note("procedure", 16, 101, code=address + 0x1001)
        self.assertEqual([line[28:44].strip() for line in self.shown(it.file())[1:-1]], ["close_all", "", "shop.adb:50", "open", "", ""])

    def test_names_procedures_at_high_addresses(self):
        it = Writer(program=sys.executable)
        it.slots.clear()
        it.line(f"program {0xfffe_1234_5040:016x} {sys.executable}")
        it.make(16, 2, (1, 0xfffe_1234_5100), (2, 0xfffe_1234_5200))
        self.say_frames(CODE)
        it.note("procedure", 16, 101, code=0xfffe_1234_5401)
        self.assertEqual(self.shown(it.file())[1].split(), ["close_all", "procedure"])

    def test_shows_the_procedure_that_went_last_through(self):
        it = store()
        self.say_frames(CODE)
        it.note("procedure", 16, 102, code=0x1401)
        it.note("queued", 16, 101, 2)
        self.assertEqual(self.shown(it.file(), "--waits")[1:], ["  last through it: two, close_all, procedure, at 0.001000"])

    def test_numbers_entries_of_a_program_that_cannot_be_read(self):
        it = Writer(program="/nowhere/a program")
        it.make(16, 1, (1, PUT))
        it.note("done", 16, 101, 1)
        self.assertEqual(self.shown(it.file())[:2], ["object 1", "                            entry 1           done"])

    def test_shows_the_last_events_of_a_ring(self):
        it = store(ring=4)
        for turn in range(10):
            it.note("done", 16, 101 + turn % 2, 1)
        self.assertEqual(self.shown(it.file(), "--all")[:2], [
            "6 events before these aren't kept",
            "      0.007000  object 1, shop.store  one                       put               done"])

    def test_a_ring_that_is_not_full_has_all(self):
        it = store(ring=4)
        it.note("queued", 16, 101, 1)
        self.assertEqual(self.shown(it.file())[-2:], ["  one                       put               queued", "  one waits on put"])

    def test_leaves_out_objects_whose_events_are_not_kept(self):
        it = store(ring=2)
        it.note("finalized", 16, 0)
        it.make(32, 1, (1, UNKNOWN))
        for _ in range(2):
            it.note("done", 32, 101, 1)
        self.assertEqual(self.shown(it.file())[:2], ["1 events before these aren't kept", "object 2"])

    def test_says_which_waits_a_ring_cannot_show(self):
        it = store(ring=2)
        for _ in range(3):
            it.note("queued", 16, 101, 1)
        self.assertEqual(self.shown(it.file(), "--waits"), [
            "1 events before these aren't kept",
            "a call that was queued before 0.002000 isn't shown",
            "one waits on put of object 1, shop.store, since 0.003000 (0.000000 before the last event)",
            "  nothing went through it before, as far as is kept"])

    def test_an_address_that_is_used_again_is_another_object(self):
        for ring in (0, 8):
            it = store(ring)
            it.note("done", 16, 101, 1)
            it.note("finalized", 16, 0)
            it.make(16, 1, (1, UNKNOWN))
            it.note("done", 16, 102, 1)
            self.assertEqual([line.split()[0] for line in self.shown(it.file())],
                             ["object", "one", "finalized", "nothing", "object", "two", "nothing"], ring)

    def test_leaves_out_slots_that_are_not_complete(self):
        it = store()
        it.note("done", 16, 101, 1)
        it.note("done", 16, 102, 1)
        it.note("done", 16, 101, 2)
        it.slots[-2] = bytes(4) + it.slots[-2][4:]
        self.assertEqual([line.split()[0] for line in self.shown(it.file())[1:-1]], ["one", "one"])

    def test_leaves_out_a_line_that_is_not_complete(self):
        it = store()
        it.task(103, "three, with a name that takes two slots or more")
        it.slots[-2] = bytes(32)
        it.task(104, "four")
        it.note("done", 16, 103, 1)
        it.note("done", 16, 104, 1)
        self.assertEqual([line.split()[0] for line in self.shown(it.file())[1:-1]], ["put", "four"])

    def test_reads_no_further_than_the_file_goes(self):
        it = store()
        it.note("done", 16, 101, 1)
        it.note("done", 16, 102, 1)
        self.assertEqual(len(self.shown(it.file()[:-352])), 3)

    def test_says_that_the_file_took_no_more(self):
        it = store()
        it.is_cut = 1
        self.assertEqual(self.shown(it.file(), "--waits")[0], "the record ends before the program did: the file took no more")

    def test_shows_a_record_without_objects(self):
        self.assertEqual(self.shown(Writer().file(), "--all"), [])

    def test_refuses_other_files(self):
        self.assertIn("isn't a record", self.refused(b""))
        self.assertIn("isn't a record", self.refused(b"x" * 5000))
        self.assertIn("isn't a record", self.refused(trace.FORM))
        self.assertIn("an older pobj", self.refused(b"program 0040 /bin/true\n"))

    def test_refuses_damaged_records(self):
        for damage in ("task x y z", f"made {16:x} 0", "chain 99 0", "program 1"):
            it = store()
            it.line(damage)
            self.assertIn("is damaged", self.refused(it.file()), damage)
        it = store()
        it.note("done", 99, 101, 1)
        self.assertIn("is damaged", self.refused(it.file()))


if __name__ == "__main__":
    counted.main()
