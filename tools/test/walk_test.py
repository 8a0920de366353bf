# SPDX-License-Identifier: MIT
"""Tests of what counts definitions, walk.py and believed.py, on a small tree: what is counted with how many lines, and what a clause
reaches. The last line is 'N passed, M failed'."""

import pathlib
import sys
import tempfile
import unittest

sys.dont_write_bytecode = True

import believed
import counted
import walk

# The definitions: `Limit` is cited through `is_small` alone, and nothing cites `Unused`, though a comment names it.
NUMBERS = """-- Numbers. A comment that looks like a definition is none:
-- abbrev pub Commented : Bool
use Rattle.std.specs.Prelude.{Bool, List}
use Rattle.low.specs.declared.sizes.Size.{Size}
use Rattle.low.specs.declared.sizes.Color.{Color}
use Rattle.low.specs.declared.sizes.Color.TheVariants.{Red}

-- The greatest, unlike Unused.
abbrev pub limit : Size
limit = record { width = 3 }

module _ {V : Type 0} where
  -- Whether it is small: three lines, without the comment
  abbrev pub is_small : Size → Bool

  is_small size = -- not Unused
    size == limit

-- A record of three lines.
pub record Pair (V : Type 0) : Type 0 where
  pub first : Size

  -- the other
  pub second : Choice

-- Data of three lines.
pub data Choice : Type 0 where
  One : Choice
  Other : Color → Choice

abbrev pub Unused : Bool
Unused = is_small Red
"""

SIZES = """//! Types.

/// A size, of three lines.
#[derive(Clone, Copy)]
pub struct Size {
    /// How wide it is: Unused.
    pub width: u64,

}

/// A color, of four lines.
pub enum Color {
    Red,
    // not Unused
    Blue,
}

/// A type that nothing cites.
pub struct Alone {
    pub it: u64,
}
"""

CODE = """//! Code.

ghost use Rattle.low.specs.Numbers.{is_small, Pair, Unused};

pub struct Thing {
    it: u64,
}

impl Thing {
    /// Says nothing of Unused.
    pub fn known(&self) -> bool
        ensures small { is_small self.now }
        // Unused
    {
        self.it < 3
    }

    pub fn paired(&self)
        ensures { Pair self.now }
    {
        let it = Unused;
    }
}
"""


class Walk(unittest.TestCase):
    """Counting in the small tree."""

    @classmethod
    def setUpClass(cls):
        cls.folder = tempfile.TemporaryDirectory()
        top = pathlib.Path(cls.folder.name)
        cls.files = {"specs/Numbers.antt": NUMBERS, "src/sizes.rt": SIZES, "src/code.rt": CODE}
        for path, text in cls.files.items():
            file = top / "crates/low" / path
            file.parent.mkdir(parents=True, exist_ok=True)
            file.write_text(text)
        walk.look_in(top)

    @classmethod
    def tearDownClass(cls):
        cls.folder.cleanup()

    def lines(self, path):
        """How many lines each definition of a file has."""
        return {name: len(lines) for name, lines in walk.definitions(walk.CRATES / "low" / path).items()}

    def reached(self, method):
        """The names of the definitions that the clauses of a method of the code reach."""
        return {name for _, name in believed.rested_on("low", "code.rt", method)}

    def test_counts_definitions_without_comments_and_blank_lines(self):
        self.assertEqual(self.lines("specs/Numbers.antt"), {"limit": 2, "is_small": 3, "Pair": 3, "Choice": 3, "Unused": 2})

    def test_counts_types_without_attributes(self):
        self.assertEqual(self.lines("src/sizes.rt"), {"Size": 3, "Color": 4, "Alone": 3})

    def test_reaches_what_is_cited_through_another(self):
        self.assertEqual(self.reached("known"), {"is_small", "limit", "Size"})

    def test_reaches_records_data_and_types(self):
        self.assertEqual(self.reached("paired"), {"Pair", "Size", "Choice", "Color"})

    def test_counts_what_is_reached(self):
        self.assertEqual(believed.counts(believed.rested_on("low", "code.rt", "known")), ("3", "8"))

    def test_finds_the_clauses_of_all_public_functions(self):
        self.assertEqual({name for _, name in walk.roots_of("low")}, {"is_small", "Pair"})

    def test_counts_a_planted_definition(self):
        before = believed.counts(believed.rested_on("low", "code.rt", "known"))
        path = walk.CRATES / "low/specs/Numbers.antt"
        try:
            planted = "\n-- A comment.\n\nabbrev pub planted : Size\nplanted = limit\n"
            path.write_text(NUMBERS.replace("size == limit", "size == planted") + planted)
            walk.look_in(walk.TOP)
            self.assertEqual(self.reached("known"), {"is_small", "planted", "limit", "Size"})
            self.assertEqual(believed.counts(believed.rested_on("low", "code.rt", "known")), ("4", "10"))
        finally:
            path.write_text(NUMBERS)
            walk.look_in(walk.TOP)
        self.assertEqual(believed.counts(believed.rested_on("low", "code.rt", "known")), before)


if __name__ == "__main__":
    counted.main()
