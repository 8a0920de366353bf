# SPDX-License-Identifier: MIT
"""Tests of what compares scenes, scene_text.py, scene_program.py, scene_orders.py and scene_report.py of comparison/, on a scene that
is made up. Neither GNAT nor pobj runs. The last line is 'N passed, M failed'."""

import pathlib
import random
import sys
import tempfile
import types
import unittest

sys.dont_write_bytecode = True
sys.path.insert(0, str(pathlib.Path(__file__).resolve().parents[2] / "comparison"))

import counted
import programs
import scene_orders
import scene_program
import scene_report
import scene_text
import text_driver
import text_program
import texts

REPORT = """callers wait for ever, after 2 commands:
    unit file "a/kitchen.adb" 3
    # Anna
    call Wash
    show
    # Anna waits: call Wash
'call Wash' raises Late, after 1 command:
    object Left  file "a/kitchen.adb"
    call Left.Wash
no order completes 'call Wash' of Bert
9 situations, 12 moves, 6 states of objects, 6 orders: complete
"""
WELL = """protected type Well (Depth : Natural := 1) is
   entry Draw (X : out Natural) with Pre => Depth > 1;
   procedure Fill (X : Natural);
   function Level return Natural;
end Well;
protected body Well is
   entry Draw (X : out Natural) when Water > 0 is begin X := Water; end Draw;
   procedure Fill (X : Natural) is begin Water := X; end Fill;
   function Level return Natural is (Water);
end Well;
"""
SCENE = """# Two wells.
object Left  file "a/well.adb"  2

object Right file "b/well.adb"
caller Anna
  call   Left.Draw
  repeat 2
  proc Right.Fill 3
  func Left.Level
  repeat 1
  call Right.Draw
caller Bert
  call Left.Draw
  abort Anna
  tick 5
  final Right
"""
SCRIPT = """object Left  file "a/well.adb"  2
object Right file "b/well.adb"
# Anna
call Right.Draw
# Bert
call Left.Draw
# raised Assertion_Error
call Left.Draw
proc Right.Fill 3
# Anna goes on: done 3
# Anna
func Right.Level
# value 2
call Left.Draw
# Bert waits: call Left.Draw
"""
# What GNAT's program writes on these commands and an `abort`: the precondition of call 2 fails, and call 3 is cancelled.
WRITTEN = """#1
Entry_1 1
clock 0
next 2
#2
2 raised 1
Entry_1 0
clock 0
next 3
#3
Entry_1 1
clock 0
next 4
done 2
1 done 3
Entry_1 0
clock 0
next 4
done 4
Entry_1 0
clock 0
next 4
3 cancelled
Entry_1 0
clock 0
next 4
= 1 0 raised ASSERTION_ERROR
= 2 0 done
= 3 1 done 3
= 4 1 value 2
! 1 1
"""
ORDER = [("Anna", "call Right.Draw"), ("Bert", "call Left.Draw"), ("Cleo", "call Left.Draw"), ("Bert", "proc Right.Fill 3"),
         ("Anna", "func Right.Level"), ("Anna", "abort Cleo"), ("Anna", "abort Dora")]
TOLD = {1: "# raised Assertion_Error", 3: "# Anna goes on: done 3", 4: "# value 2", 5: "# Cleo goes on: cancelled"}
LEFT = "# a/well.adb\nunit well 2\ncall Draw\nshow\ncall Draw\nshow\ncancel 1\nshow\n"
RIGHT = "# b/well.adb\nunit well\ncall Draw\nshow\nproc Fill 3\nshow\nfunc Level\nshow\n"
ANSWERS = {
    LEFT: "raised Assertion_Error\nDraw 0\nclock 0\nnext 1\n#1\nDraw 1\nclock 0\nnext 2\n1 cancelled\nDraw 0\nclock 0\nnext 2\n",
    RIGHT: "#1\nDraw 1\nclock 0\nnext 2\ndone\n1 done 3\nDraw 0\nclock 0\nnext 2\nvalue 2\nDraw 0\nclock 0\nnext 2\n",
}


def play_of(callers, written):
    """Returns a play of the scene with these callers in which GNAT's program writes this."""
    play, unit = scene_program.Play.__new__(scene_program.Play), text_program.read(WELL)
    play.scene, play.names = scene_text.Scene(scene_text.objects_in(SCENE), dict.fromkeys(callers, [])), callers
    play.translations = []
    for place, words in ((1, ["2"]), (2, [])):
        one = texts.Translation.__new__(texts.Translation)
        one.unit, one.place, one.discriminants = unit, place, words
        one.shape = texts.Shape({"natural": (0, 9)}, [[]], "")
        play.translations.append(one)
    play.run = lambda parts, time: written
    return play


def steps_of(order):
    """Returns the steps of the pairs."""
    return [scene_text.Step(*pair) for pair in order]


class Reading(unittest.TestCase):
    """What is read of scenes and reports."""

    def test_findings(self):
        script = 'unit file "a/kitchen.adb" 3\n# Anna\ncall Wash\nshow\n# Anna waits: call Wash\n'
        other = 'object Left  file "a/kitchen.adb"\ncall Left.Wash\n'
        self.assertEqual(list(scene_report.findings(REPORT)), [
            ("callers wait for ever, after 2 commands:", script), ("'call Wash' raises Late, after 1 command:", other)])
        alone = script.replace('file "a/kitchen.adb"', "kitchen")
        self.assertEqual(scene_report.text_of(script), (pathlib.Path("a/kitchen.adb"), alone))
        self.assertEqual(scene_report.text_of(script.replace("unit ", "unit  "))[0], pathlib.Path("a/kitchen.adb"))
        self.assertEqual(scene_report.text_of(other), (None, other))

    def test_scene(self):
        scene = scene_text.read(SCENE)
        self.assertEqual([(one.name, str(one.file), one.line) for one in scene.objects],
                         [("Left", "a/well.adb", "unit well 2"), ("Right", "b/well.adb", "unit well")])
        self.assertEqual(scene.callers, {
            "Anna": ["call Left.Draw", *["proc Right.Fill 3", "func Left.Level"] * 2, "call Right.Draw"],
            "Bert": ["call Left.Draw", "abort Anna", "tick 5", "final Right"]})

    def test_one_object(self):
        scene = scene_text.read('unit file "a well.adb" 3\ncaller Anna\n  timed 5 Draw(1) 2\n')
        self.assertEqual((scene.objects[0].name, scene.objects[0].line), ("", "unit a well 3"))
        self.assertEqual([scene_text.addressed(scene, line) for line in ("timed 5 Draw(1) 2", "final", "call A.B")],
                         [(0, "timed 5 Draw(1) 2"), (0, "final"), (0, "call A.B")])
        with self.assertRaisesRegex(programs.Failed, "without a file"):
            scene_text.read("unit well 3\n")

    def test_addressed(self):
        scene = scene_text.read(SCENE)
        for line, place, command in (
            ("call Right.Draw", 1, "call Draw"), ("timed 9 Right.Draw(A.B) 3 4", 1, "timed 9 Draw(A.B) 3 4"),
            ("func Left.Level", 0, "func Level"), ("final Right", 1, "final"),
        ):
            self.assertEqual(scene_text.addressed(scene, line), (place, command))

    def test_parts(self):
        steps = steps_of([("Bert", "abort Anna"), ("Anna", "call Right.Draw"), ("Bert", "abort Anna"), ("Bert", "tick 5")])
        found = [(part.step, part.place, part.command) for part in scene_text.parts_of(scene_text.read(SCENE), steps)]
        self.assertEqual(found, [(1, 1, "call Draw"), (2, 1, "abort Anna"), (3, 0, "tick 5"), (3, 1, "tick 5")])

    def test_report(self):
        steps, waits = scene_text.steps_of(scene_text.read(SCENE), SCRIPT)
        self.assertEqual([(step.caller, step.line, step.told) for step in steps], [
            ("Anna", "call Right.Draw", set()), ("Bert", "call Left.Draw", {"raised Assertion_Error"}),
            ("Bert", "call Left.Draw", set()), ("Bert", "proc Right.Fill 3", {"Anna goes on: done 3"}),
            ("Anna", "func Right.Level", {"value 2"}), ("Anna", "call Left.Draw", set())])
        self.assertEqual(waits, {"Bert waits: call Left.Draw"})


class Playing(unittest.TestCase):
    """What GNAT's program reads and writes."""

    def setUp(self):
        self.play = play_of(["Anna", "Bert", "Cleo", "Dora"], WRITTEN)
        self.course = self.play.course(steps_of(ORDER), 20)

    def test_script(self):
        parts = scene_text.parts_of(self.play.scene, steps_of(ORDER))
        self.assertEqual(self.play.script(parts).splitlines(), [
            "unit 1 x 2", "unit 2 x ", "by 1 2", "call Entry_1 4 0 ", "show", "by 2 1", "call Entry_1 7 0 ", "show",
            "by 3 1", "call Entry_1 10 0 ", "show", "by 2 2", "proc Own 13 2 3", "show", "by 1 2", "proc Own 16 3 ", "show",
            "by 1 1", "abort 3", "show"])

    def test_course(self):
        self.assertEqual([(part.step, part.command, part.lines[:-3]) for part in self.course.parts], [
            (0, "call Draw", ["#1"]), (1, "call Draw", ["#1", "1 raised Assertion_Error"]), (2, "call Draw", ["#2"]),
            (3, "proc Fill 3", ["done", "1 done 3"]), (4, "func Level", ["value 2"]), (5, "cancel 1", ["2 cancelled"])])
        self.assertEqual([part.lines[-1] for part in self.course.parts], [f"next {number}" for number in (2, 2, 3, 2, 2, 3)])
        self.assertEqual(self.course.waiting, [{"Anna"}, {"Anna"}, {"Anna", "Cleo"}, {"Cleo"}, {"Cleo"}, set(), set()])
        self.assertEqual(self.course.told, [set(), {"raised Assertion_Error"}, set(), {"Anna goes on: done 3"}, {"value 2"},
                                            {"Cleo goes on: cancelled"}, set()])
        self.assertEqual([script for script, _ in scene_orders.Order(self.play, steps_of(ORDER)).tries()], [LEFT, RIGHT])

    def test_abort_of_none(self):
        steps = steps_of([*ORDER, ("Bert", "abort Cleo")])
        self.play.run = lambda parts, time: WRITTEN.replace("= 1", "Entry_1 0\nclock 0\nnext 4\n= 1", 1)
        course = self.play.course(steps, 20)
        self.assertEqual((len(course.parts), len(course.waiting)), (6, 8))

    def test_end_at_a_call_that_waits(self):
        course = self.play.course(steps_of([*ORDER, ("Bert", "call Left.Draw")]), 20)
        self.assertEqual((len(course.parts), len(course.waiting)), (6, 7))

    def test_choice(self):
        found = text_driver.choice(3)
        for line in ("when 1 => return Own_Text_1.Pobj_Made;", "when others => Own_Text_3.Pobj_Describe;", "with Own_Text_2;"):
            self.assertIn(line, found)

    def test_trial(self):
        well, other = pathlib.Path("a/well.adb"), pathlib.Path("b/well.adb")
        with tempfile.TemporaryDirectory() as folder:
            cases = pathlib.Path(folder) / "cases"
            programs.lay_out([RIGHT, "unit signal\n"], {LEFT: well, RIGHT: other}, cases)
            found = {file.name: file.read_text() for file in cases.iterdir()}
        self.assertEqual(found, {"0": RIGHT, "0.args": "run\n--unit\n1/well.adb\n", "1": "unit signal\n"})


class Comparing(unittest.TestCase):
    """Which differences are found."""

    def setUp(self):
        self.play = play_of(["Anna", "Bert", "Cleo", "Dora"], WRITTEN)
        programs.tried.update(ANSWERS)

    def first(self, order):
        """Returns the step of the order's first difference, and what each says."""
        found = order.difference
        return None if found is None else (found.step, found.ours, found.theirs)

    def reported(self, changes=(), more=()):
        """Returns the order, as a report has it with these changes and more lines."""
        told = {**TOLD, **dict(changes)}
        lines = [line for step, (name, command) in enumerate(ORDER) for line in (f"# {name}", command, told.get(step, ""))]
        return scene_orders.Reported(self.play, "\n".join([*lines, *more]))

    def test_none(self):
        self.assertIsNone(self.first(scene_orders.Order(self.play, steps_of(ORDER))))
        self.assertIsNone(self.first(self.reported()))
        self.assertIsNone(self.first(self.reported({step: "" for step in range(6)})))

    def test_answers(self):
        programs.tried[RIGHT] = ANSWERS[RIGHT].replace("1 done 3\nDraw 0", "Draw 1")
        self.assertEqual(self.first(scene_orders.Order(self.play, steps_of(ORDER))), (
            3, ["done", "Draw 1", "clock 0", "next 2"], ["done", "1 done 3", "Draw 0", "clock 0", "next 2"]))

    def test_missing_answers(self):
        programs.tried[LEFT] = ANSWERS[LEFT].partition("1 cancelled")[0]
        self.assertEqual(self.first(scene_orders.Order(self.play, steps_of(ORDER)))[0], 5)

    def test_fault(self):
        programs.tried[LEFT] = None
        self.assertEqual(self.first(scene_orders.Order(self.play, steps_of(ORDER)))[0], 1)

    def test_report(self):
        self.assertEqual(self.first(self.reported({4: "# value 3"})), (4, ["value 3"], ["value 2"]))
        self.assertEqual(self.first(self.reported({3: ""})), (3, [], ["Anna goes on: done 3"]))
        self.assertEqual(self.first(self.reported({0: "# done 4"})), (0, ["done 4"], []))
        self.assertEqual(self.first(self.reported({6: "# Cleo waits: call Left.Draw"})), (6, ["Cleo waits: call Left.Draw"], []))

    def test_command_of_a_call_that_waits(self):
        self.assertEqual(self.first(self.reported(more=["call Left.Draw"]))[:2], (7, ["it is made"]))

    def test_unfit(self):
        def run(parts, time):
            raise scene_program.Unfit("not expressible: why", 0)
        self.play.run = run
        order = scene_orders.Order(self.play, steps_of(ORDER))
        self.assertEqual((str(order.unfit), order.tries()), ("not expressible: why", []))


class Philosophers:
    """A play in which each caller takes two forks, one after the other, and puts them down."""

    def __init__(self, count):
        lines = {f"C{place}": [f"take {place}", f"take {(place + 1) % count}", "put", "put"] for place in range(count)}
        self.scene = scene_text.Scene([], lines)

    def first_course(self, steps):
        """Returns which callers wait after each step, up to the first command of one that waits."""
        held, wanted, waiting = {}, {}, []
        for step in steps:
            if step.caller in wanted:
                break
            kind, *fork = step.line.split(" ")
            if kind == "take":
                wanted[step.caller] = fork[0]
            else:
                held.pop(next(fork for fork, holder in held.items() if holder == step.caller))
            for caller, fork in list(wanted.items()):
                if fork not in held:
                    held[fork] = caller
                    del wanted[caller]
            waiting.append(set(wanted))
        return types.SimpleNamespace(waiting=waiting)


def callers_of(steps):
    """Returns which caller makes each step."""
    return tuple(step.caller for step in steps)


def orders_of(play, steps, waiting):
    """Yields which caller makes each step, for all orders that begin with the steps, after which these wait."""
    made = callers_of(steps)
    ready = [name for name, lines in play.scene.callers.items() if name not in waiting and made.count(name) < len(lines)]
    for name in ready:
        longer = [*steps, scene_text.Step(name, play.scene.callers[name][made.count(name)])]
        yield from orders_of(play, longer, play.first_course(longer).waiting[-1])
    if not ready:
        yield made


class Drawing(unittest.TestCase):
    """Which orders are drawn."""

    def test_orders(self):
        play, hangs = Philosophers(3), 0
        for seed in range(200):
            steps = scene_orders.drawn(play, random.Random(seed))
            self.assertEqual(steps, scene_orders.drawn(play, random.Random(seed)))
            waiting = play.first_course(steps).waiting
            self.assertEqual(len(waiting), len(steps))
            self.assertEqual(scene_orders.rest_of(play.scene, steps, waiting[-1], random.Random(1)), [])
            hangs += waiting[-1] != set()
        self.assertTrue(0 < hangs < 200)

    def test_each_order(self):
        play = Philosophers(2)
        found = {callers_of(scene_orders.drawn(play, random.Random(seed))) for seed in range(300)}
        self.assertEqual(found, set(orders_of(play, [], set())))


if __name__ == "__main__":
    counted.main()
