# SPDX-License-Identifier: MIT
"""Tests of bindings/ada/scene.py on made-up records: the objects and callers of a scene and their names, how each call is written,
repetitions, requeues, what is to be added, and what is left out. The last line is 'N passed, M failed'."""

import contextlib
import io
import pathlib
import sys
import tempfile
import unittest

sys.dont_write_bytecode = True
sys.path.insert(0, str(pathlib.Path(__file__).resolve().parents[2] / "bindings/ada"))

import counted
import scene
import trace
from trace_test import CODE, GET, PUT, SAID, UNKNOWN, Writer, store

# An address in the code of the procedure close_all, and one in the code of a procedure that has only a line.
CLOSE_ALL, ONLY_LINE = 0x1401, 0x1421


def said_by(command, *words, given=None):
    """What nm, readelf and addr2line say."""
    frames = {address: CODE.get(int(address, 16), [("??", "??:0")]) for address in (given or "").split()}
    return SAID[command] + "".join(f"{address}\n" + "".join(f"{name}\n{line}\n" for name, line in it) for address, it in frames.items())


class Scene(unittest.TestCase):
    """What a scene has of made-up records."""

    def setUp(self):
        self.folder = tempfile.TemporaryDirectory()
        self.path = pathlib.Path(self.folder.name) / "record"
        self.before, trace.said_by = trace.said_by, said_by

    def tearDown(self):
        trace.said_by = self.before
        self.folder.cleanup()

    def made(self, it):
        """The scene's lines, and what is said on standard error."""
        self.path.write_bytes(it.file())
        with contextlib.redirect_stdout(io.StringIO()) as out, contextlib.redirect_stderr(io.StringIO()) as err:
            scene.main(str(self.path))
        return out.getvalue().splitlines(), err.getvalue()

    def lines(self, it):
        """The scene's lines below the comments at its head, if nothing is said on standard error."""
        lines, said = self.made(it)
        self.assertEqual(said, "")
        return lines[next(at for at, line in enumerate(lines) if line.startswith("# object")):]

    def of_callers(self, it):
        """The lines from the first caller on."""
        lines = self.lines(it)
        return lines[next(at for at, line in enumerate(lines) if line.startswith("caller")):]

    def test_each_kind_of_call(self):
        it = store()
        it.note("done", 16, 101, 1)
        it.note("procedure", 16, 102, code=CLOSE_ALL)
        it.line("exception 77 SHOP.CLOSED")
        for kind in ("raised", "program_error", "raised STORAGE_ERROR", "cancelled"):
            it.note(kind, 16, 101, 2, exception=77)
        self.assertEqual(self.lines(it), [
            "# object 1, shop.store", 'object Store file "store.adb"',
            "caller One", "  call Store.Put", "  call Store.Get", "  call Store.Get", "  call Store.Get", "  cond Store.Get",
            "caller Two", "  proc Store.Close_All"])

    def test_a_call_that_waits_is_one_command(self):
        it = store()
        it.note("queued", 16, 101, 2)
        it.note("done", 16, 102, 1)
        it.note("done", 16, 101, 2)
        it.note("queued", 16, 102, 1)
        self.assertEqual(self.of_callers(it), [
            "caller One", "  call Store.Get", "caller Two", "  call Store.Put", "  call Store.Put", f"  {scene.WAITS}"])

    def test_a_call_that_is_cancelled_at_once_is_conditional(self):
        it = store()
        it.note("queued", 16, 101, 2)
        it.time -= 1_000_000
        it.note("cancelled", 16, 101, 2)
        self.assertEqual(self.of_callers(it), ["caller One", "  cond Store.Get"])

    def test_a_call_that_is_cancelled_later_is_timed(self):
        for later in (True, False):
            it = store()
            it.note("queued", 16, 101, 2)
            it.time -= 0 if later else 1_000_000
            if not later:
                it.note("done", 16, 102, 1)
                it.time -= 1_000_000
            it.note("cancelled", 16, 101, 2)
            others = [] if later else ["caller Two", "  call Store.Put"]
            self.assertEqual(self.of_callers(it), ["caller One", "  timed 1 Store.Get", *others, "caller Clock", "  tick 1"])

    def test_the_caller_that_raises_the_time_has_a_name_of_its_own(self):
        it = store()
        it.task(103, "clock")
        it.note("queued", 16, 103, 2)
        it.note("cancelled", 16, 103, 2)
        self.assertEqual([line for line in self.of_callers(it) if line.startswith("caller")], ["caller Clock", "caller Clock_2"])

    def test_a_requeued_call_is_one_command(self):
        it = store()
        it.make(32, 1, (1, UNKNOWN))
        it.note("queued", 16, 101, 1)
        it.note("requeued", 16, 101, 1)
        it.note("queued", 32, 101, 1)
        it.note("done", 32, 101, 1)
        it.note("requeued", 16, 101, 1)
        it.note("done", 16, 101, 2)
        self.assertEqual(self.of_callers(it), ["caller One", "  call Store.Put", "  call Store.Put"])

    def test_what_a_task_calls_while_it_waits_is_marked(self):
        it = store()
        it.note("queued", 16, 101, 2, level=1)
        it.note("done", 16, 101, 1, level=2)
        it.note("done", 16, 101, 2, level=1)
        it.note("done", 16, 101, 1, level=1)
        self.assertEqual(self.of_callers(it), ["caller One", "  call Store.Get", f"  {scene.OVERLAPS}", "  call Store.Put", "  call Store.Put"])

    def test_names_and_numbers(self):
        it = store()
        it.make(32, 1, (1, UNKNOWN))
        it.make(48, 4, (1, PUT), (2, GET))
        for serial, name in ((103, "workers(1)"), (104, "workers(2)"), (105, "main_task"), (106, "two"), (107, "\xe9 7"), (108, "x" * 99)):
            it.task(serial, name)
        it.note("done", 16, 101, 1)
        it.note("done", 32, 109, 1)
        for task in range(102, 109):
            it.note("done", 48, task, 4)
        lines = self.lines(it)
        self.assertEqual([line.split()[1] for line in lines if line.startswith("caller")],
                         ["One", "Task", "Two_1", "Workers_1", "Workers_2", "Main_Task", "Two_2", "Task_7", "X" + "x" * 26])
        self.assertEqual(lines[:6], ["# object 1, shop.store", 'object Store_1 file "store.adb"', "# object 2",
                                     'object Object_2 file "object_2.adb"', "# object 3, shop.store", 'object Store_2 file "store.adb"'])
        self.assertIn("  call Object_2.Entry_1", lines)
        self.assertIn("  call Store_2.Get(3)", lines)

    def test_objects_that_are_not_called_are_left_out(self):
        it = store()
        it.make(32, 1, (1, UNKNOWN))
        it.note("finalized", 32, 0)
        it.note("done", 16, 101, 1)
        self.assertEqual(self.lines(it)[1:], ['object Store file "store.adb"', "caller One", "  call Store.Put"])

    def test_a_repetition_is_written_once(self):
        for lines, wanted in (
            ("ababab", "3ab"), ("aaaa", "4a"), ("aa", "aa"), ("aaa", "3a"), ("ab", "ab"), ("", ""), ("xababab", "x3ab"), ("abababa", "a3ba"),
            ("aabaab", "2aab"), ("abcabcx", "abcabcx"), ("aaaaaaaab", "aaaaaaaab"), ("xyabab", "xy2ab"), ("abab", "2ab")):
            written = "".join(line.removeprefix("repeat ") for line in scene.repeated(list(lines)))
            self.assertEqual(written, wanted)

    def test_a_caller_repeats(self):
        it = store()
        for _ in range(7):
            it.note("done", 16, 101, 2)
            it.note("procedure", 16, 101, code=CLOSE_ALL)
        it.note("queued", 16, 101, 2)
        self.assertEqual(self.of_callers(it), [
            "caller One", "  call Store.Get", "  repeat 7", "  proc Store.Close_All", "  call Store.Get", f"  {scene.WAITS}"])

    def test_says_what_is_to_be_added(self):
        it = store()
        it.note("done", 16, 101, 1)
        heads = self.made(it)[0][:-4]
        self.assertEqual(len(heads), 5)
        for word in ("Ada text", "names", "parameters", "functions"):
            self.assertTrue(any(word in line for line in heads), word)
        it.make(32, 3, (1, PUT))
        it.note("queued", 32, 101, 2)
        it.note("cancelled", 32, 101, 2)
        said = "\n".join(self.made(it)[0])
        for word in ("family's entry", "`timed`"):
            self.assertIn(word, said)

    def test_procedures_without_a_name_are_left_out(self):
        it = store()
        it.note("done", 16, 101, 1)
        it.note("procedure", 16, 101)
        it.note("procedure", 16, 101, code=ONLY_LINE)
        lines, said = self.made(it)
        self.assertEqual((lines[-1], said), ("  call Store.Put", "pobj trace: calls of procedures without a name are left out: 2\n"))

    def test_most_objects(self):
        it = Writer()
        it.task(101, "one")
        for number in range(18):
            it.make(16 + 16 * number, 1, (1, PUT))
            it.note("done", 16 + 16 * number, 101, 1)
        it.note("queued", 16 + 16 * 17, 101, 1)
        lines, said = self.made(it)
        self.assertEqual(said, "pobj trace: a scene has at most 16 objects: 2 others are left out\n")
        self.assertEqual([line.split(",")[0] for line in lines if line.startswith("# object")],
                         [f"# object {number}" for number in [*range(1, 16), 18]])
        self.assertEqual(lines[-3:], ["  call Store_16.Put", "  call Store_16.Put", f"  {scene.WAITS}"])

    def test_most_callers(self):
        for cancelled, most in ((False, 64), (True, 63)):
            it = store()
            for number in range(66):
                it.task(200 + number, f"t{number}")
                it.note("queued", 16, 200 + number, 1)
                it.note("cancelled" if cancelled else "done", 16, 200 + number, 1)
            it.note("queued", 16, 265, 1)
            lines, said = self.made(it)
            callers = [line for line in lines if line.startswith("caller")]
            self.assertEqual(said, f"pobj trace: a scene has at most {most} tasks: {66 - most} others are left out\n")
            self.assertEqual((len(callers), callers[most - 2], callers[most - 1]), (64, f"caller T{most - 2}", "caller T65"))

    def test_most_commands(self):
        it = store()
        for _ in range(1003):
            it.note("done", 16, 101, 1)
        lines, said = self.made(it)
        self.assertEqual(said, "pobj trace: a caller has at most 1000 commands, so later ones are left out: 3 of One\n")
        self.assertEqual(lines[-4:], ["caller One", "  repeat 1000", "  call Store.Put", "  # 3 later commands are left out"])

    def test_says_what_is_not_kept(self):
        it = store(ring=4)
        it.is_cut = 1
        for _ in range(10):
            it.note("done", 16, 101, 1)
        self.assertEqual(self.made(it)[1], "pobj trace: 6 events before these aren't kept, so the scene begins in the middle\n"
                         "pobj trace: the record ends before the program did: the file took no more\n")

    def test_refuses_records_without_calls_and_other_files(self):
        for content, said in ((store().file(), "has no calls"), (b"x" * 5000, "isn't a record")):
            self.path.write_bytes(content)
            with contextlib.redirect_stderr(io.StringIO()) as err, self.assertRaises(SystemExit) as ended:
                scene.main(str(self.path))
            self.assertEqual(ended.exception.code, 4)
            self.assertIn(said, err.getvalue())


if __name__ == "__main__":
    counted.main()
