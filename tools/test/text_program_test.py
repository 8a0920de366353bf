# SPDX-License-Identifier: MIT
"""Tests of what makes Ada programs of Ada texts, text_program.py, text_driver.py and texts.py of comparison/, on a text that is made
up. The last line is 'N passed, M failed'."""

import pathlib
import sys
import unittest

sys.dont_write_bytecode = True
sys.path.insert(0, str(pathlib.Path(__file__).resolve().parents[2] / "comparison"))

import counted
import text_driver
import text_program
import texts

TEXT = """--  A kitchen (SOUP, no_soup): "protected type" in a comment and the string "requeue" mean nothing.
with Ada.Text_IO; -- a context clause

package Kitchens is
   SOUP_SIZE : constant := 3; type Dish is (Soup, Cake); No_Soup, Late : exception; -- soup, LATE
   type Order is record
      What : Dish := Soup;
      Size : Positive := 1;
   end record;

   protected Kitchen is
      entry Ask (Dish) (For_Guest, Place : in Positive; Price : out Natural);
      entry Wash;
      procedure Cook (It : in out Order; Letter : Character := ';');
      function Note (It : Dish) return Order with Pre => It /= Cake;
   private
      entry Ready (1 .. 2) (For_Guest, Place : in Positive; Price : out Natural) with Pre => Place < 9;
      Open : Boolean := False;
   end Kitchen;
end Kitchens;

package body Kitchens is
   protected body Kitchen is
      entry Ask (for D in Dish) (For_Guest, Place : in Positive; Price : out Natural) when (case D is when Soup => Open, when Cake => True) is
      begin
         if Place = 1 then requeue Ready (1) with abort; end if;
         requeue Ready (2);
      end Ask;

      entry Wash when Dish'('x' = 'x' and then Soup) = Soup is begin null; end Wash;
   end Kitchen;
end Kitchens;
"""
TWO = "protected A is end A; protected body A is end A; protected B is entry E; end B; " \
      "protected body B is entry E when True is begin null; end E; end B;"
COUNTING = """ function Pobj_Waiting return Standard.Pobj_Texts.Units.Counts is \
Pobj_Counts : Standard.Pobj_Texts.Units.Counts (1 .. 5_000); Pobj_Place : Standard.Natural := 0; begin \
for Pobj_Index in Dish loop Pobj_Place := Pobj_Place + 1; Pobj_Counts (Pobj_Place) := Ask (Pobj_Index)'Count; end loop; \
Pobj_Place := Pobj_Place + 1; Pobj_Counts (Pobj_Place) := Wash'Count; \
for Pobj_Index in 1 .. 2 loop Pobj_Place := Pobj_Place + 1; Pobj_Counts (Pobj_Place) := Ready (Pobj_Index)'Count; end loop; \
return Pobj_Counts (1 .. Pobj_Place); end Pobj_Waiting;"""
BEGUN = " Pobj_Begun : constant Standard.Boolean := Standard.Pobj_Texts.Begun ({}'Caller);"
REQUEUED = "Standard.Pobj_Texts.Requeue_Call (Ask'Caller); requeue Ready"


class Reading(unittest.TestCase):
    """What is read of the text."""

    def setUp(self):
        self.unit = text_program.read(TEXT)

    def test_operations(self):
        found = [(one.kind, one.name, one.family, one.result, one.is_public, one.has_conditions, one.place) for one in self.unit.operations]
        self.assertEqual(found, [
            ("entry", "Ask", "Dish", "", True, False, 1),
            ("entry", "Wash", "", "", True, False, 2),
            ("procedure", "Cook", "", "", True, False, 0),
            ("function", "Note", "", "Order", True, True, 0),
            ("entry", "Ready", "1 .. 2", "", False, True, 3),
        ])

    def test_parameters(self):
        found = [(one.name, one.mode, one.mark, one.default) for one in self.unit.operations[0].parameters]
        self.assertEqual(found, [("For_Guest", "in", "Positive", ""), ("Place", "in", "Positive", ""), ("Price", "out", "Natural", "")])
        found = [(one.name, one.mode, one.mark, one.default) for one in self.unit.operations[2].parameters]
        self.assertEqual(found, [("It", "in out", "Order", ""), ("Letter", "in", "Character", "';'")])

    def test_parts_of_records(self):
        self.assertEqual(list(self.unit.scalars(self.unit.operations[2].parameters)), [
            (1, ".What", "in out", "Dish"), (1, ".Size", "in out", "Positive"), (2, "", "in", "Character")])

    def test_names(self):
        self.assertEqual((self.unit.name, self.unit.packages, self.unit.discriminants), ("Kitchen", ["Kitchens"], []))
        self.assertEqual([texts.spelled(self.unit, word) for word in ("SOUP", "TRUE", "PROGRAM_ERROR", "7", "NO_SOUP", "SOUP_SIZE")],
                         ["Soup", "True", "Program_Error", "7", "No_Soup", "SOUP_SIZE"])

    def test_discriminants(self):
        text = "protected type Cup (Size : Positive; Hot : Boolean := True) is end Cup; protected body Cup is end Cup;"
        found = [(one.name, one.mark, one.default) for one in text_program.read(text).discriminants]
        self.assertEqual(found, [("Size", "Positive", ""), ("Hot", "Boolean", "True")])

    def test_one_of_two(self):
        self.assertEqual([text_program.read(TWO, name).name for name in ("a", "B")], ["A", "B"])
        self.assertNotIn("Pobj_Begun", text_program.changed(text_program.read(TWO, "A")))

    def test_generic_packages(self):
        head = "generic type T is private; type K is (<>); package P.Q is pragma Pure; "
        unit = text_program.read(head + TWO.partition(" protected B")[0])
        self.assertEqual((unit.formals, unit.generic, unit.packages), (["T", "K"], "Q", ["Q"]))
        self.assertIn("package Q is  protected type A", text_program.changed(unit))
        self.assertIn("package Pobj_Instance is new Q (T => Standard.Integer, K => Standard.Integer);", text_driver.body(unit, "q"))

    def test_refusals(self):
        for text, why in (("", "0 protected"), (TWO, "2 protected"), ("generic " + TWO.partition(" protected B")[0], "generic"),
                          ("protected A is ( end A; protected body A is end A;", "ends too early"), ("protected A is end A;", "no body"),
                          ("protected A is entry E (X : ); end A; protected body A is end A;", "no subtype"),
                          ("protected A is entry E (X : access Integer); end A; protected body A is end A;", "access")):
            with self.assertRaisesRegex(text_program.Refused, why):
                text_program.read(text)


class Changing(unittest.TestCase):
    """What becomes of the text."""

    def test_insertions(self):
        wanted = TEXT
        for old, new in (
            ("with Ada.Text_IO;", ""),
            ("protected Kitchen", "protected type Kitchen"),
            ("   private", "   function Pobj_Waiting return Standard.Pobj_Texts.Units.Counts; private"),
            ("body Kitchen is", "body Kitchen is" + COUNTING),
            ("Cake => True) is", "Cake => True) is" + BEGUN.format("Ask")),
            ("= Soup is", "= Soup is" + BEGUN.format("Wash")),
            ("requeue Ready (1)", REQUEUED + " (1)"),
            ("requeue Ready (2)", REQUEUED + " (2)"),
        ):
            self.assertEqual(wanted.count(old), 1, old)
            wanted = wanted.replace(old, new)
        self.assertEqual(text_program.changed(text_program.read(TEXT)).split("\n"), wanted.split("\n"))

    def test_lines_stay(self):
        body = text_driver.body(text_program.read(TEXT), "kitchen.adb")
        self.assertTrue(body.startswith('pragma Source_Reference (1, "kitchen.adb");\nwith Pobj_Texts; with Ada.Text_IO; package body'))
        self.assertIn("   protected type Kitchen is", body.split("\n")[11])


class Translating(unittest.TestCase):
    """How a script and its answers are translated."""

    def setUp(self):
        self.translation = texts.Translation.__new__(texts.Translation)
        self.translation.unit = text_program.read(TEXT)
        subtypes = {"positive": (1, 99), "natural": (0, 99), "dish": ["SOUP", "CAKE"], "character": ["'a'", "'b'"]}
        self.translation.shape = texts.Shape(subtypes, [["SOUP", "CAKE"], [], ["1", "2"]], "")

    def test_commands(self):
        for command, line in (
            ("call Ask(Cake) 7 8", "call Entry_1(2) 5 0 7 8"),
            ("timed 9 Ask(Soup) 7 8", "timed 9 Entry_1(1) 5 0 7 8"),
            ("cond Wash", "cond Entry_2 5 0 "),
            ("call Wash 7", "call Entry_2 5 0 "),
            ("call Ask(Open) 7 8", "call Entry_1(3) 5 0 7 8"),
            ("call Ready(3) 7 8", "call Entry_3(3) 5 0 7 8"),
            ("call Ready(1) 7 8", "call Entry_3(1) 5 0 7 8"),
            ("call Sweep", "call Nothing 5"),
            ("proc Cook Cake 3 'a'", "proc Own 5 3 Cake 3 'a'"),
            ("proc Cook Cake 3", "proc Own 5 3 Cake 3"),
            ("call Wash(7)", "call Entry_2(1) 5 0 "),
            ("func Note Soup", "proc Own 5 4 Soup"),
            ("func Cook Soup", "proc Nothing 5"),
            ("cancel 3", "cancel 3"),
        ):
            self.assertEqual(self.translation.line(5, command), line)

    def test_faults(self):
        for command in ("call Ask(Cake) 7", "call Ask(Cake) 7 0", "call Ask(Tea) 7 8", "call Ready(x) 7 8", "proc Cook Cake", "func Note soup", "call", "tick x", "jump"):
            with self.assertRaises(texts.Fault):
                self.translation.line(5, command)

    def test_answers(self):
        written = "\n".join([
            "#1", "raised 1", "2 done 2", "3 cancelled", "1 done 3", "4 cancelled", "5 program_error", "Entry_1(2) 7", "Entry_2 0", "clock 0",
            "= 1 0 raised NO_SOUP", "= 2 9 done 7 CAKE", "= 3 8 done", "! 1 8", "! 2 9", "! 4 2"])
        self.assertEqual(texts.Answers(self.translation, written).lines(), [
            "#1", "raised No_Soup", "4 ?", "1 done", "2 done 7 Cake", "3 cancelled", "5 program_error", "Ask(Cake) 7", "Wash 0", "clock 0"])


if __name__ == "__main__":
    counted.main()
