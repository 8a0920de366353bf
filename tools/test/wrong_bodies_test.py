# SPDX-License-Identifier: MIT
"""Tests of what tries wrong bodies, wrong_bodies.py, on what `rt check` has said. The last line is 'N passed, M failed'."""

import pathlib
import sys
import tempfile
import unittest
from unittest import mock

sys.dont_write_bytecode = True

import counted
import wrong_bodies

# What `rt check` says of a function whose proof names a step that the edit took away; of one with a goal that isn't proved; and of a
# text that it can't read.
NAMING = """./proofs/shape/number_firsts/Answers.antt:12:19: error: `loop-preserved`: record `Lts.After-width` has no field `in_ok-push` (nearest: .push)
  the fields that can be named here are `before`, `width`
fn po_unit::shape::number_firsts: not proved
fn po_unit::shape::Shape::new: no proof: it calls `po_unit::shape::number_firsts`, which is not proved
"""
GOAL = """./proofs/shape/Shape/position_of/Answers.antt:17:143: error: `found`: `search`: no proof of `r ≡ leb a.0.now c.args.number`
  was found. Every way was tried: a deeper search would find nothing either.
./proofs/shape/Shape/position_of/Answers.antt:20:5: error: 2 declarations that depend on `found`, which was rejected, were not checked: returns
note: antt's advice on a `search` that finds no proof, printed once in this run: what is tried: the hypotheses
fn po_unit::shape::Shape::position_of: not proved
fn po_unit::shape::Shape::of_flat: no proof: it calls `po_unit::shape::Shape::position_of`, which is not proved
"""
AFTER_NAMING = """./proofs/shape/number_firsts/Answers.antt:20:5: error: 2 declarations that depend on `loop-preserved`, which was rejected, were not checked: returns
note: ./proofs/shape/number_firsts/Lib.antt:3:1: `Rattle.po_unit.proofs.shape.number_firsts.Answers` was not admitted
"""
UNREAD = """src/shape.rt:151:30: error: `total` is not in scope
fn po_unit::shape::number_firsts: not proved
"""
END_OF_CHECK = "only=16 proved=14\n"

# A crate with two functions, and edits of each.
SOURCE = """pub fn number_firsts() {
    let it = 1;
}

impl Shape {
    fn position_of(&self) {
        let other = 2;
    }
}
"""
FIRST = "file: src/shape.rt\nold: let it = 1;\nnew: let it = 3;\n"
SECOND = "file: src/shape.rt\nold: let other = 2;\nnew: let other = 4;\n"


class WrongBodies(unittest.TestCase):
    """What is said of edits."""

    def setUp(self):
        folder = tempfile.TemporaryDirectory()
        self.addCleanup(folder.cleanup)
        self.crate = pathlib.Path(folder.name) / "sample"
        (self.crate / "src").mkdir(parents=True)
        (self.crate / "src/shape.rt").write_text(SOURCE)
        self.first, self.second = self.crate / "first.edit", self.crate / "second.edit"
        self.first.write_text(FIRST)
        self.second.write_text(SECOND)

    def tried(self, edits, *said):
        """What is printed of these edits if the checks say this, one after the other, each with the status 1, and what is returned."""
        checks = iter(said)
        with mock.patch.object(wrong_bodies, "check", lambda *words: (1, next(checks) + END_OF_CHECK)), mock.patch("builtins.print") as out:
            results = wrong_bodies.try_crate(edits, self.crate)
        self.assertEqual(list(checks), [], "fewer checks than wanted")
        return results, [call.args[0] for call in out.call_args_list]

    def test_accepts_a_clause_that_is_false(self):
        self.assertEqual(self.tried([self.second], GOAL), ([True], ["sample/second: refused"]))

    def test_says_what_only_a_name_refuses(self):
        for said in (NAMING, NAMING + AFTER_NAMING):
            results, (line,) = self.tried([self.first], said)
            self.assertEqual(results, [False])
            self.assertIn("BAD: sample/first: refused only because a proof names what it took away: ./proofs/shape/number_firsts/", line)

    def test_accepts_a_false_clause_beside_a_name(self):
        self.assertEqual(self.tried([self.first], GOAL + NAMING)[0], [True])

    def test_says_what_cannot_be_read(self):
        results, (line,) = self.tried([self.first], UNREAD)
        self.assertEqual(results, [False])
        self.assertIn("BAD: sample/first: the prover can't read the edited text: src/shape.rt:151:30", line)

    def test_says_what_is_not_refused(self):
        with mock.patch.object(wrong_bodies, "check", lambda *words: (0, "only=16 proved=16\n")), mock.patch("builtins.print") as out:
            self.assertEqual(wrong_bodies.try_crate([self.first], self.crate), [False])
        self.assertIn("FAILED: sample/first: not refused", out.call_args.args[0])

    def test_tries_alone_what_a_shared_check_does_not_settle(self):
        results, lines = self.tried([self.first, self.second], GOAL + NAMING, NAMING)
        self.assertEqual(results, [False, True])
        self.assertEqual(lines[1], "sample/second: refused")

    def test_settles_a_shared_check(self):
        both = GOAL + "src/shape.rt:1:1: error: `returns`: no proof\nfn po_unit::shape::number_firsts: not proved\n"
        self.assertEqual(self.tried([self.first, self.second], both)[0], [True, True])

    def test_tries_all_alone_if_a_name_belongs_to_none(self):
        lemma = "./proofs/Lemmas.antt:3:1: error: `most` is not in scope\n"
        self.assertEqual(self.tried([self.first, self.second], GOAL + lemma, NAMING, GOAL)[0], [False, True])

    def test_says_what_cannot_be_applied(self):
        self.first.write_text(FIRST.replace("let it", "let that"))
        results, (line,) = self.tried([self.first])
        self.assertEqual(results, [False])
        self.assertIn("FAILED: sample/first: not tried: its old text is in src/shape.rt 0 times", line)

    def test_the_name_of_a_type(self):
        names = {
            "impl Shape {": "Shape",
            "impl<'a> Reader<'a> {": "Reader",
            "impl<'a, T: Copy> Cell<'a, T> {": "Cell",
            "impl<U: Unit> Unit for Object<U> {": "ObjectUnit",
            "impl<'a> Display for Line<'a> {": "LineDisplay",
        }
        for head, name in names.items():
            self.assertEqual(wrong_bodies.name_of_type(head), name)


if __name__ == "__main__":
    counted.main()
