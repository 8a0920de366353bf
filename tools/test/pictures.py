# SPDX-License-Identifier: MIT
"""Tests of the pictures: what a time line has to show of a script, that its texts don't overlap, and that the pictures of the pages
are those of the scripts as they are. The last line is 'N passed, M failed'."""

import pathlib
import re
import sys
import unittest
import xml.etree.ElementTree

sys.dont_write_bytecode = True
TOP = pathlib.Path(__file__).resolve().parent.parent.parent
sys.path.insert(0, str(TOP / "tools/picture"))

import counted
import crates
import pages
import picture
import story
import timeline

NAME = "{http://www.w3.org/2000/svg}"
# The width of a letter in texts that have letters of one width, by the size of the letters in pixels.
LETTER = {True: 6.1, False: 6.7}


def signal(calls):
    """A script in which this many calls wait and are then let go, and the answers to its copy."""
    script = ["unit signal", *(f"call Wait {n}" for n in range(1, calls + 1)), *["proc Send 0"] * calls]
    answers = ["value 0", "Wait 0", "clock 0", "next 1"]
    for n in range(1, calls + 1):
        answers += [f"#{n}", "value 0", f"Wait {n}", "clock 0", f"next {n + 1}"]
    for n in range(1, calls + 1):
        answers += ["done 0", f"{n} done {n}", "value 0", f"Wait {calls - n}", "clock 0", f"next {calls + 1}"]
    return "\n".join(script).encode(), "\n".join(answers)


def relay(commands):
    """The story of a script of a relay. Each command has its words, its answers, the level, and the numbers of calls on Second and
    Third."""
    script, answers = b"unit relay\n", ["value 0", "First 0", "Second 0", "Third 0", "clock 0", "next 1"]
    for words, own, level, second, third in commands:
        script += words + b"\n"
        answers += [*own, f"value {level}", "First 0", f"Second {second}", f"Third {third}", "clock 0", "next 9"]
    return story.read(script, "\n".join(answers))


# A call waits on Second, is kept there, goes on to Third and is cancelled there; another one goes all the way.
RELAYED = [
    (b"call First 7", ["#1"], 0, 1, 0),
    (b"cancel 1", ["kept"], 0, 1, 0),
    (b"proc Set 1", ["done 1"], 1, 0, 1),
    (b"cancel 1", ["1 cancelled"], 1, 0, 0),
    (b"call First 8", ["#2"], 1, 0, 1),
    (b"proc Set 2", ["done 2", "2 done 8"], 2, 0, 0),
]


def texts_of(drawn):
    """All texts that the picture shows, with their places and classes."""
    root = xml.etree.ElementTree.fromstring(drawn)
    return [it for it in root.iter(NAME + "text")]


def words_of(drawn):
    """The words that the picture shows."""
    return [it.text for it in texts_of(drawn)]


def told_by(drawn):
    """What the parts of the picture say in words."""
    return [it.text for it in xml.etree.ElementTree.fromstring(drawn).iter(NAME + "title")]


def room_of(it):
    """The room that a text takes: its left, right, and lower edge."""
    kind = it.get("class", "")
    small = "inside" in kind or "small" in kind
    wide = len(it.text) * (8.0 if "head" in kind else 5.8 if "prose" in kind else LETTER[small])
    x = float(it.get("x")) - {"middle": wide / 2, "end": wide}.get(it.get("text-anchor"), 0)
    return x, x + wide, float(it.get("y"))


def crowded(drawn):
    """The pairs of texts that lie over each other, and texts outside of the picture."""
    width = float(re.search(r'width="([0-9.]+)"', drawn)[1])
    rooms = sorted((room_of(it)[2] // 400, room_of(it), it.text) for it in texts_of(drawn))
    faults = [words for _, (left, right, _), words in rooms if left < 0 or right > width]
    for n, (part, (left, right, y), words) in enumerate(rooms):
        for other, (left2, right2, y2), words2 in rooms[n + 1 :]:
            if other != part or left2 >= right - 1:
                break
            if abs(y - y2) < 9:
                faults.append((words, words2))
    return faults


class Drawing(unittest.TestCase):
    """What a time line shows."""

    def drawn(self, told, name="it.pobj"):
        """The picture, which has to be good XML, the same each time, with no text over another one."""
        drawn = timeline.draw(told, name)
        self.assertEqual(drawn, timeline.draw(told, name))
        self.assertEqual(crowded(drawn), [])
        root = xml.etree.ElementTree.fromstring(drawn)
        for part in root.iter(NAME + "g"):
            if part.get("role") is not None:
                self.assertTrue(part[0].tag == NAME + "title" and part[0].text, "a part says nothing in words")
        self.assertTrue(root.find(NAME + "title").text and root.find(NAME + "desc").text)
        self.assertIn("prefers-color-scheme:dark", root.find(NAME + "style").text)
        return drawn

    def test_five_calls(self):
        drawn = self.drawn(story.read(*signal(5)))
        for n in range(1, 6):
            self.assertIn(f"#{n} call Wait {n}", words_of(drawn))
            self.assertIn(f"Call {n} waits on Wait from line {n + 1} to line {n + 6}.", told_by(drawn))
            self.assertIn(f"Call {n} ends at line {n + 6}: done {n}.", told_by(drawn))
        said = "Line 7: proc Send 0. Answer: done 0. Calls that end: call 1 done 1."
        self.assertIn(f"{said} After it: State 0; waiting Wait 4; clock 0.", told_by(drawn))

    def test_two_hundred_calls(self):
        drawn = self.drawn(story.read(*signal(200)))
        told = told_by(drawn)
        for n in range(1, 201):
            self.assertIn(f"Call {n} ends at line {n + 201}: done {n}.", told)
        self.assertTrue(any(it.startswith("These wait on Wait all along: #1 to #") for it in told))
        self.assertLess(float(re.search(r'width="([0-9.]+)"', drawn)[1]), 1500)

    def test_most_commands(self):
        script = signal(picture.MOST_COMMANDS // 2)[0]
        with self.assertRaises(picture.Refused) as refused:
            picture.look_at(script)
        self.assertEqual(str(refused.exception), "line 2001: a picture has at most 2000 commands")
        picture.look_at(script.rpartition(b"\n")[0])

    def test_requeue_and_cancellation(self):
        told = relay(RELAYED)
        self.assertEqual(told.calls[1].stays, [["Second", 1, 3], ["Third", 3, 4]])
        self.assertEqual((told.calls[1].kept, told.calls[1].how, told.calls[2].stays), ([2], "cancelled", [["Third", 5, 6]]))
        drawn = self.drawn(told)
        said = "Call #1 call First 7: is issued at line 2, waits on Second from line 2 to line 4"
        said += ", waits on Third from line 4 to line 5, is kept at line 3"
        self.assertIn(f"{said}, ends at line 5: cancelled.", told_by(drawn))
        self.assertIn("Call 1 is kept: it isn't cancelled at line 3.", told_by(drawn))
        for entry in ("Second", "Third", "kept", "cancelled", "kept: not cancelled"):
            self.assertIn(entry, words_of(drawn))
        self.assertNotIn("First", words_of(drawn))

    def test_order_of_arrival(self):
        waits = [(b"call First %d" % n, [f"#{n}"], 0, n, 0) for n in range(1, 4)]
        one, other = (b"cancel 2", ["2 cancelled"], 0, 2, 0), (b"proc Set 1", ["done 1"], 1, 1, 1)
        told = relay([*waits, one, other])
        self.assertEqual(told.calls[1].stays, [["Second", 1, 5], ["Third", 5, None]])
        self.assertEqual((told.calls[2].stays, told.calls[2].how), ([["Second", 2, 4]], "cancelled"))
        self.assertEqual(told.calls[3].stays, [["Second", 3, None]])

    def test_still_waiting(self):
        drawn = self.drawn(relay(RELAYED[:1]))
        self.assertIn("still waits", words_of(drawn))
        self.assertIn("2 commands, 1 call: 1 still waiting.", words_of(drawn))

    def test_fault(self):
        script, answers = signal(1)
        told = story.read(script + b"\n# <\ncal <Put> & \"7\" \xff\x00\x1b]\n", answers, (5, "unknown command"))
        drawn = self.drawn(told)
        said = 'Line 5 has a fault, unknown command, and the run ends there: cal <Put> & "7" \ufffd\ufffd\ufffd]'
        self.assertIn(said, " ".join(words_of(drawn)))
        self.assertTrue(any(it.startswith("Line 5 has a fault: ") for it in told_by(drawn)))
        self.assertIn("fault of the script", words_of(drawn))

    def test_any_name(self):
        drawn = self.drawn(relay(RELAYED), "<&\"'>\x00\u202e\ud800.pobj".encode("utf-8", "replace").decode())
        self.assertTrue(told_by(drawn)[0].startswith("<&\"'>"))
        self.assertNotIn("\u202e", drawn)

    def test_refused_and_long_words(self):
        most = 2**64 - 1
        refused = (b"call Fourth %d" % most, ["refused 1"], most, 0, 0)
        drawn = self.drawn(relay([refused, (b"timed %d First %d" % (most, most), ["#1"], most, 0, 1)]))
        said = f"Line 2: call Fourth {most}. Answer: refused 1."
        self.assertIn(f"{said} After it: State {most}; no call waits; clock 0.", told_by(drawn))

    def test_other_answers(self):
        script, answers = signal(2)
        changed = [answers.replace("Wait 2", "Wait 7"), answers.replace("#2", "2#"), answers.replace("2 done 2", "9 done 2")]
        for wrong in [*changed, answers[:-4], ""]:
            with self.assertRaises(story.Unread):
                story.read(script, wrong)


class Asking(unittest.TestCase):
    """The copy of a script that asks for the state."""

    def test_lines(self):
        copy, numbers = story.asking(b"# one\n\n unit signal \n\xff\xfe")
        self.assertEqual(copy, b"# one\n\n unit signal \nfunc State 0\nshow\n\xff\xfe\nfunc State 0\nshow\n")
        self.assertEqual(numbers, [1, 2, 3, 3, 3, 4, 4, 4])
        said, fault = picture.own_line(b"pobj: line 6: unknown command\n", numbers)
        self.assertEqual((said, fault), (b"pobj: line 4: unknown command\n", (4, "unknown command")))
        self.assertEqual(picture.own_line(b"pobj: out of memory\n", numbers), (b"pobj: out of memory\n", None))

    def test_texts(self):
        script = b'# one\nunit file "a b.adb" 3\ncall Pop\ncall Push -5\n'
        self.assertEqual(story.text_of(script), "a b.adb")
        for other in (b"", b"unit buffer 2\n", b"unit file a.adb\n", b'call "unit" file\n'):
            self.assertIsNone(story.text_of(other))
        self.assertIn(b"call Pop\nfunc State\nshow\n", story.asking(script, story.ASKED_OF_TEXT)[0])
        self.assertEqual(picture.asked(["--unit", "a.adb", "it", "-o", "it.svg"]), (["it"], "it.svg", "a.adb"))
        asked = ["refused 4", "Push 0", "Pop 0", "clock 0", "next 1"]
        answers = [*asked, "#1", *asked[:2], "Pop 1", *asked[3:], "#2", "2 raised Too_Far", "1 done -5 Red", *asked]
        told = story.read(script, "\n".join(answers))
        self.assertEqual(told.commands[-1].ends, [(2, "raised Too_Far"), (1, "done -5 Red")])
        self.assertIn("raised Too_Far", timeline.draw(told, "it.pobj"))

    def test_nothing(self):
        for script in (b"", b"\n \n# nothing\n", b"#" * (picture.MOST_BYTES + 1)):
            with self.assertRaises(picture.Refused):
                picture.look_at(script)


class Crates(unittest.TestCase):
    """The graph of crates."""

    def test_arrows(self):
        needs = crates.needs_in("# crates\na:\nb: a out\nc staticlib: b a\ntest_d: a\n")
        self.assertEqual(needs, {"a": [], "b": ["a"], "c": ["b", "a"]})
        self.assertEqual(crates.direct(needs), {"a": [], "b": ["a"], "c": ["b"]})
        self.assertEqual(crates.layers_of(crates.direct(needs)), {"a": 0, "b": 1, "c": 2})


class Pages(unittest.TestCase):
    """The pictures of the pages."""

    def test_are_as_drawn(self):
        drawn = pages.all_pictures()
        self.assertEqual(sorted(drawn), sorted(it.stem for it in pages.PICTURES.glob("*.svg")))
        for name, it in drawn.items():
            with self.subTest(name):
                xml.etree.ElementTree.fromstring(it)
                self.assertEqual(it.encode(), (pages.PICTURES / f"{name}.svg").read_bytes(), "tools/pictures.sh draws it again")
                self.assertEqual(crowded(it), [])

    def test_are_shown_with_words(self):
        shown = set()
        for page in [TOP / "README.md", *sorted((TOP / "docs").glob("*.md"))]:
            for words, path in re.findall(r"!\[([^]]*)\]\(([^)]*)\)", page.read_text()):
                with self.subTest(f"{page.name}: {path}"):
                    self.assertGreater(len(words), 20, "a picture has a text in its place")
                    self.assertTrue((page.parent / path).is_file())
                shown.add((page.parent / path).resolve())
        self.assertEqual({it.resolve() for it in pages.PICTURES.glob("*.svg")} - shown, set(), "no page shows these")


if __name__ == "__main__":
    counted.main()
