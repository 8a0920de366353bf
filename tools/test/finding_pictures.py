# SPDX-License-Identifier: MIT
"""Tests of the pictures of findings: what is read of a report of `pobj explore`, what a picture has to show of each finding, that its
texts don't overlap, and which files `pobj explore SCENE --picture DIR` writes. The last line is 'N passed, M failed'."""

import pathlib
import re
import subprocess
import sys
import tempfile
import unittest
import xml.etree.ElementTree

sys.dont_write_bytecode = True
TOP = pathlib.Path(__file__).resolve().parent.parent.parent
sys.path.insert(0, str(TOP / "tools/picture"))

import counted
import findings
import lanes
import report
from picture import Refused
from pictures import NAME, crowded, texts_of, told_by, words_of

# A report as it is: a call waits and goes on, one waits for ever, and answers come after their commands.
FORKS = """\
callers wait for ever, after 6 commands:
    object Left  file "fork.adb"
    object Right file "fork.adb"
    # Anna
    call Left.Take
    # Bert
    call Left.Take
    # Anna
    proc Left.Put_Down
    # Bert goes on: done
    func Left.Count
    # value 3
    cond Right.Take
    # cancelled
    # Bert
    call Right.Take
    # Bert waits: call Right.Take
    # Left: Taken = True, Count = 3
    # Right: Taken = True
26 situations, 34 moves, 8 states of objects, 14 orders: complete
"""
# One object: a tick ends two calls, of which one raises an exception, while a third waits.
ALARM = """\
'timed 5 Wait' raises Too_Late, after 5 commands:
    unit file "a <b> & c.adb" 3
    # Anna
    timed 5 Wait
    # Bert
    timed 5 Wait
    # Cleo
    call Wait
    # Clock
    # abort Dora: no call waits
    tick 5
    # clock 5
    # Anna goes on: cancelled
    # Bert goes on: raised Too_Late
    show
    # Cleo waits: call Wait
    # the object: Level = 0, Name = "<&>"
no order completes 'call Wait' of Cleo
9 situations, 9 moves, 9 states of objects, 9 orders: complete
"""
CLEAN = "26 situations, 34 moves, 8 states of objects, 14 orders: complete\n"


def long_report(callers, commands, name="Worker"):
    """A report of callers that take turns. In each round all wait, except the last, whose procedure lets them go on."""
    lines = []
    for place in range(commands):
        turn = place % callers
        lines += [f"# {name}_{turn}", "call Store.Get" if turn < callers - 1 else f"proc Store.Put {place}"]
        if turn == callers - 1:
            lines += [f"# {name}_{other} goes on: done {place}" for other in range(callers - 1)]
    lines += [f"# {name}_{turn} waits: call Store.Get" for turn in range(commands % callers)]
    return f"callers wait for ever, after {commands} commands:\n" + "".join(f"    {line}\n" for line in lines) + CLEAN


class Reading(unittest.TestCase):
    """What is read of a report."""

    def test_commands_and_waits(self):
        (found,) = report.read(FORKS)
        self.assertEqual(found.title, "callers wait for ever, after 6 commands")
        self.assertEqual(found.objects, ['object Left  file "fork.adb"', 'object Right file "fork.adb"'])
        self.assertEqual([(it.caller, it.text, it.answer) for it in found.commands], [
            ("Anna", "call Left.Take", ""), ("Bert", "call Left.Take", ""), ("Anna", "proc Left.Put_Down", ""),
            ("Anna", "func Left.Count", "value 3"), ("Anna", "cond Right.Take", "cancelled"), ("Bert", "call Right.Take", "")])
        self.assertEqual(found.waits, [report.Wait("Bert", 1, 2, "done"), report.Wait("Bert", 5)])
        self.assertEqual(found.values, [("Left", "Taken = True, Count = 3"), ("Right", "Taken = True")])
        self.assertTrue(found.is_hang)
        self.assertEqual(found.callers, ["Anna", "Bert"])

    def test_one_object(self):
        (found,) = report.read(ALARM)
        self.assertEqual([it.text for it in found.commands], ["timed 5 Wait"] * 2 + ["call Wait", "abort Dora", "tick 5"])
        self.assertEqual([it.answer for it in found.commands[3:]], ["no call waits", "clock 5"])
        self.assertEqual([(it.caller, it.ended, it.answer) for it in found.waits],
                         [("Anna", 4, "cancelled"), ("Bert", 4, "raised Too_Late"), ("Cleo", None, "")])
        self.assertEqual(found.values, [("the object", 'Level = 0, Name = "<&>"')])
        self.assertFalse(found.is_hang)

    def test_reports_of_scenes(self):
        for file in sorted((TOP / "examples/scenes").glob("*.out")):
            text = file.read_text()
            found = report.read(text)
            titles = re.findall(r"^(.*, after ([0-9]+) commands?):$", text, re.MULTILINE)
            with self.subTest(file.name):
                self.assertEqual([(it.title, str(len(it.commands))) for it in found], titles)
                self.assertEqual(text.count(" waits: "), sum(wait.ended is None for it in found for wait in it.waits))

    def test_answers_are_no_callers(self):
        lines = ["# Anna", "cond Get", "# cancelled", "final", "# final", "# Bert", "# something new, that isn't known yet", "call Get"]
        lines += ["# Anna", "# abort Cleo: no call waits", "proc Put 7", "# Bert goes on: done 7", "# done 3", "# done", "call Get"]
        (found,) = report.read("it:\n" + "".join(f"    {line}\n" for line in lines))
        self.assertEqual([(it.caller, it.answer) for it in found.commands], [
            ("Anna", "cancelled"), ("Anna", "final"), ("Bert", ""), ("Anna", "no call waits"), ("Anna", "done 3"), ("done", "")])
        self.assertEqual(found.waits, [report.Wait("Bert", 2, 4, "done 7")])

    def test_other_texts(self):
        for text in ("", CLEAN, "    call Get\n", "no order completes 'call Get' of Anna\n" + CLEAN, "it:\n    show\n"):
            self.assertEqual(report.read(text), [])
        for line in ("# Anna waits: call Get", "# Anna goes on: done"):
            with self.assertRaises(report.Unread):
                report.read(f"it:\n    {line}\n")


class Drawing(unittest.TestCase):
    """What a picture shows of a finding."""

    def drawn(self, text):
        """The picture of the report's only finding, which has to be good XML, the same each time, with no text over another one."""
        (found,) = report.read(text)
        drawn = lanes.draw(found)
        self.assertEqual(drawn, lanes.draw(found))
        self.assertEqual(crowded(drawn), [])
        root = xml.etree.ElementTree.fromstring(drawn)
        for part in root.iter(NAME + "g"):
            if part.get("role") is not None:
                self.assertTrue(part[0].tag == NAME + "title" and part[0].text, "a part says nothing in words")
        self.assertEqual(root.find(NAME + "title").text, found.title)
        for place, it in enumerate(found.commands, 1):
            self.assertIn(f" {place}, {it.caller}: {it.text}", root.find(NAME + "desc").text)
        self.assertIn("prefers-color-scheme:dark", root.find(NAME + "style").text)
        return drawn

    def kinds_of(self, drawn, words):
        """The classes of the texts with these words."""
        return {it.get("class", "") for it in texts_of(drawn) if it.text == words}

    def test_a_hang(self):
        drawn = self.drawn(FORKS)
        told, words = told_by(drawn), words_of(drawn)
        self.assertIn("1, Anna: call Left.Take.", told)
        self.assertIn("2, Bert: call Left.Take, which waits until command 3: done.", told)
        self.assertIn("3, Anna: proc Left.Put_Down; Bert goes on: done.", told)
        self.assertIn("4, Anna: func Left.Count, answer: value 3.", told)
        self.assertIn("6, Bert: call Right.Take, which waits for ever.", told)
        self.assertIn("Bert goes on at command 3: done.", told)
        for it in ("call", "Left.Take", "proc", "value 3", "cancelled", "Taken = True, Count = 3", 'Left and Right: file "fork.adb"'):
            self.assertIn(it, words)
        self.assertEqual(self.kinds_of(drawn, "waits for ever"), {"new wrong", "prose"})
        for it in ("call issued", "done", "procedure", "function", "waits", "waits for ever"):
            self.assertIn("prose", self.kinds_of(drawn, it), "the legend has it")
        self.assertIn("At the end Right has Taken = True.", drawn)

    def test_bars_and_ways(self):
        root = xml.etree.ElementTree.fromstring(self.drawn(FORKS))
        bars = [it for it in root.iter(NAME + "rect") if it.get("class", "").startswith("bar") and float(it.get("height")) == lanes.BAR]
        self.assertEqual([it.get("class") for it in bars], ["bar c0", "bar c3"])
        ways = [it for it in root.iter(NAME + "line") if it.get("class") == "way"]
        self.assertEqual([float(it.get("x1")) for it in ways], [float(bars[0].get("x")) + float(bars[0].get("width"))])
        stripes = [it for it in root.iter(NAME + "rect") if it.get("class") == "stripe"]
        self.assertLess(float(stripes[-1].get("x")), float(bars[1].get("x")))

    def test_an_exception(self):
        drawn = self.drawn(ALARM)
        self.assertEqual(self.kinds_of(drawn, "raised Too_Late"), {"halo wrong"})
        self.assertEqual(self.kinds_of(drawn, "cancelled"), {"halo", "prose"})
        self.assertEqual(self.kinds_of(drawn, "still waits"), {"new", "prose"})
        self.assertNotIn("waits for ever", words_of(drawn))
        self.assertIn("bar c2", drawn)
        self.assertIn("5, Clock: tick 5, answer: clock 5; Anna goes on: cancelled; Bert goes on: raised Too_Late.", told_by(drawn))
        for it in ("timed 5", "tick 5", "abort", "Dora", "no call waits", 'the object: file "a <b> & c.adb" 3', 'Level = 0, Name = "<&>"'):
            self.assertIn(it, words_of(drawn))

    def test_a_refused_command(self):
        drawn = self.drawn("'call Hidden' is refused: the entry is private, after 1 command:\n    # Anna\n    call Hidden\n    # refused 2\n")
        self.assertEqual(self.kinds_of(drawn, "refused 2"), {"halo wrong"})
        self.assertIn("refused", words_of(drawn))

    def test_scenes(self):
        for file in sorted((TOP / "examples/scenes").glob("*.out")):
            text = file.read_text()
            for it in re.findall(r"^.*:\n(?:    .*\n)+", text, re.MULTILINE):
                with self.subTest(file.name):
                    self.drawn(it)

    def test_five_callers_have_one_band(self):
        drawn = self.drawn((TOP / "examples/scenes/forks.out").read_text())
        self.assertEqual(words_of(drawn).count("command"), 1)
        self.assertEqual(words_of(drawn).count("waits for ever"), 6)
        self.assertLessEqual(float(re.search(r'width="([0-9.]+)"', drawn)[1]), lanes.WIDEST)

    def test_many_commands_have_bands(self):
        drawn = self.drawn(long_report(7, 101))
        told = told_by(drawn)
        for place in range(101):
            self.assertTrue(any(it.startswith(f"{place + 1}, Worker_{place % 7}: ") for it in told))
        self.assertGreater(words_of(drawn).count("command"), 5)
        self.assertIn("→", words_of(drawn))
        self.assertIn("waits: call Store.Get", words_of(drawn))
        self.assertEqual(words_of(drawn).count("waits for ever"), 3 + 1)
        self.assertLessEqual(float(re.search(r'width="([0-9.]+)"', drawn)[1]), lanes.WIDEST)

    def test_many_callers(self):
        drawn = self.drawn(long_report(64, 64, "A_Name_That_Is_As_Long_As_It_May_Be"))
        self.assertTrue(any(it.endswith("A_Name_That_Is_As_Long_As_It_May_Be_62 goes on: done 63.") for it in told_by(drawn)))

    def test_long_words(self):
        most = 2**64 - 1
        call = f'call The_Resource_Manager_Of_It_All.Acquire_Exclusively_Or_Wait(-2147483648) {most} (1, 2, 3) "a text of some words" Red'
        lines = ["# An_Application_Programmer_Of_Ada", call, f"# raised {'A_Long_Name_' * 4}", "# B", f"timed {most} X.Y", "# B waits: timed"]
        lines += ["# X: Y = 1", f"# The_Resource_Manager_Of_It_All: {', '.join(f'Variable_{n} = {most}' for n in range(20))}"]
        drawn = self.drawn(f"{call} {'and so on ' * 20}:\n" + "".join(f"    {line}\n" for line in lines))
        self.assertTrue(any(call in it for it in told_by(drawn)))
        self.assertLessEqual(float(re.search(r'width="([0-9.]+)"', drawn)[1]), lanes.WIDEST)


class Files(unittest.TestCase):
    """What `pobj explore SCENE --picture DIR` writes."""

    def setUp(self):
        self.folder = tempfile.TemporaryDirectory()
        self.room = pathlib.Path(self.folder.name)
        self.to = self.room / "some" / "where"

    def tearDown(self):
        self.folder.cleanup()

    def explore(self, text, status, *words):
        """Carries out the words with a program that writes this report and ends with this status. It notes its own words."""
        program = self.room / "program"
        (self.room / "report").write_text(text)
        program.write_text(f'#!/bin/sh\necho "$*" >{self.room}/words\ncat {self.room}/report\necho warned >&2\nexit {status}\n')
        program.chmod(0o755)
        command = [sys.executable, findings.__file__, str(program), "explore", *words]
        return subprocess.run(command, capture_output=True, text=True, check=False)

    def test_words(self):
        for words in (["a", "--picture", "d"], ["--picture", "d", "a"], ["--picture=d", "a"], ["a", "--picture=d"]):
            self.assertEqual(findings.split(["explore", *words]), ("d", ["explore", "a"]))
        self.assertEqual(findings.split(["--picture", "d", "--", "--picture"]), ("d", ["--", "--picture"]))
        for words in (["a", "--picture"], ["--picture="], ["--picture", "--most", "9"], ["--picture", "d", "--picture", "e"], ["--picture", ""]):
            with self.assertRaises(Refused) as refused:
                findings.split(words)
            self.assertEqual(refused.exception.status, 2)

    def test_each_finding(self):
        ended = self.explore(FORKS.replace(CLEAN, "") + ALARM, 3, "it.scene", "--picture", str(self.to), "--most", "9")
        self.assertEqual((ended.returncode, ended.stdout), (3, FORKS.replace(CLEAN, "") + ALARM))
        self.assertEqual(ended.stderr, f"warned\npobj: drawn: {self.to}/1.svg, {self.to}/2.svg\n")
        self.assertEqual((self.room / "words").read_text(), "explore it.scene --most 9\n")
        drawn = [lanes.draw(it) for text in (FORKS, ALARM) for it in report.read(text)]
        self.assertEqual([file.read_text() for file in sorted(self.to.iterdir())], drawn)

    def test_other_files_stay(self):
        self.to.mkdir(parents=True)
        for name in ("1.svg", "7.svg", "mine"):
            (self.to / name).write_text("before")
        self.assertEqual(self.explore(FORKS, 3, f"--picture={self.to}", "it.scene").returncode, 3)
        self.assertEqual({file.name: file.read_text() == "before" for file in self.to.iterdir()}, {"1.svg": False, "7.svg": True, "mine": True})

    def test_nothing_found(self):
        for status in (0, 1, 2, 4, 7):
            ended = self.explore(CLEAN, status, "it.scene", "--picture", str(self.to))
            self.assertEqual((ended.returncode, ended.stdout, ended.stderr), (status, CLEAN, "warned\n"))
        self.assertFalse(self.to.exists())

    def test_no_folder(self):
        (self.room / "file").write_text("before")
        for to in (self.room / "file", self.room / "file/below"):
            ended = self.explore(FORKS, 3, "it.scene", "--picture", str(to))
            self.assertEqual((ended.returncode, ended.stdout), (4, ""))
            self.assertIn(f"pobj: {to} can't be a folder for pictures", ended.stderr)
        self.assertFalse((self.room / "words").exists())

    def test_too_many_commands(self):
        ended = self.explore(long_report(1, findings.MOST_COMMANDS + 1) + FORKS, 3, "it.scene", "--picture", str(self.to))
        self.assertEqual(ended.returncode, 3)
        self.assertIn("pobj: finding 1 isn't drawn: a picture has at most 2000 commands", ended.stderr)
        self.assertEqual([file.name for file in self.to.iterdir()], ["2.svg"])

    def test_a_report_that_cannot_be_read(self):
        ended = self.explore("it:\n    # Anna waits: call Get\n", 3, "it.scene", "--picture", str(self.to))
        self.assertEqual((ended.returncode, ended.stderr), (4, "warned\npobj: the report can't be drawn: Anna waits, and has made no command\n"))


if __name__ == "__main__":
    counted.main()
