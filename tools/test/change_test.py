# SPDX-License-Identifier: MIT
"""Tests of what changes units of GNAT's runtime, change.awk and make.sh of bindings/ada, on a unit that is made up. The last line is
'N passed, M failed'."""

import os
import pathlib
import shutil
import subprocess
import sys
import tempfile
import unittest

sys.dont_write_bytecode = True

import counted

ADA = pathlib.Path(__file__).resolve().parents[2] / "bindings/ada"
UNIT = """--  with a comment
with Ovens;

package body Bakery is

   procedure Bake (Loaf : Bread);

   procedure Bake (Loaf : Bread) is
   begin
      Heat;
      Wait;

      Wait;
      if Loaf.Done then
         Cool;
      end if;
   end Bake;

   function Count
     return Natural is
   begin
      Heat;
      return 1;
   end Count;

end Bakery;
"""
COOL = "in: Bake\nold:\n         Cool;\nnew:\n         Rest;\n"


class Folder(unittest.TestCase):
    """A test with a folder of its own."""

    def setUp(self):
        folder = tempfile.TemporaryDirectory()
        self.addCleanup(folder.cleanup)
        self.folder = pathlib.Path(folder.name)

    def write(self, name, text):
        """Writes a file of the folder, and returns its path."""
        path = self.folder / name
        path.parent.mkdir(parents=True, exist_ok=True)
        path.write_text(text)
        return path


class Changes(Folder):
    """What change.awk makes of the unit."""

    def run_on_unit(self, changes):
        """What there is after these changes: the status, what is printed, and what is said."""
        edit, unit = self.write("bakery.adb.edit", changes), self.write("bakery.adb", UNIT)
        self.write("parts/loop.adb", "      loop\n         Knead;\n\n      end loop;\n")
        words = ["awk", "-v", f"parts={self.folder}/parts", "-f", ADA / "change.awk", edit, unit]
        done = subprocess.run(words, capture_output=True, text=True)
        return done.returncode, done.stdout, done.stderr.replace(f"{self.folder}/", "")

    def makes(self, changes, *pairs):
        """Checks that the changes replace in the unit the first text of each pair by its second one."""
        wanted = UNIT
        for old, new in pairs:
            self.assertEqual(wanted.count(old), 1, old)
            wanted = wanted.replace(old, new)
        self.assertEqual(self.run_on_unit(changes), (0, wanted, ""))

    def says(self, changes, status, *said):
        """Checks that the changes aren't made, and that this is said."""
        self.assertEqual(self.run_on_unit(changes), (status, "", "".join(f"pobj ada: bakery.adb.edit:{line}\n" for line in said)))

    def test_adds_clauses_in_their_order(self):
        self.makes("with: Flour\nwith: Water.Cold\n", ("with Ovens;", "with Flour;\nwith Water.Cold;\nwith Ovens;"))

    def test_replaces(self):
        self.makes(f"# Why (9.5).\n\n{COOL}", ("Cool;", "Rest;"))

    def test_replaces_lines_by_lines(self):
        changes = "in: Bake\nold:\n\n      Wait;\n\n      Wait;\n\nnew:\n\n      Rest;\n\n      if Late then\n\n"
        self.makes(changes, ("      Wait;\n\n      Wait;\n", "      Rest;\n\n      if Late then\n"))

    def test_puts_before(self):
        self.makes("in: Count\nbefore:\n      Heat;\nnew:\n      Light;\n", ("      Heat;\n      return", "      Light;\n      Heat;\n      return"))

    def test_puts_after(self):
        self.makes("in: Bake\nafter:\n   end Bake;\nnew:\n   --  Done\n", ("   end Bake;\n", "   end Bake;\n   --  Done\n"))

    def test_drops(self):
        self.makes("in: Bake\ndrop:\n         Cool;\n      end if;\n", ("         Cool;\n      end if;\n", ""))

    def test_puts_a_part_in_a_text(self):
        part = "      loop\n         Knead;\n\n      end loop;\n"
        self.makes("in: Count\nold:\n      return 1;\nnew:\npart: loop.adb\n\n      return 2;\n", ("      return 1;\n", f"{part}\n      return 2;\n"))

    def test_renames(self):
        changes = "in: Count\nrename: Number\nold:\n   end Number;\nnew:\n   end Number; --  Count\n"
        self.makes(changes, ("function Count\n", "function Number\n"), ("end Count;", "end Number; --  Count"))

    def test_makes_changes_in_their_order(self):
        self.makes(f"{COOL}\nbefore:\n         Rest;\nnew:\n         Turn;\n", ("         Cool;", "         Turn;\n         Rest;"))

    def test_looks_for_whole_lines_of_the_subprogram(self):
        self.says("in: Bake\nold:\n      Heat\nnew:\n      Light;\n", 1, "2: bakery.adb, Bake: found 0 times instead of once:\n      Heat")
        self.says("in: Bake\ndrop:\n   procedure Bake (Loaf : Bread);\n", 1, "2: bakery.adb, Bake: found 0 times instead of once:\n   procedure Bake (Loaf : Bread);")

    def test_names_each_place_that_is_not_there_once(self):
        changes = f"in: Bake\ndrop:\n      Wait;\n\n{COOL}\n# Again.\n{COOL}\nin: Eat\ndrop:\n      Chew;\n"
        self.says(
            changes,
            1,
            "2: bakery.adb, Bake: found 2 times instead of once:\n      Wait;",
            "13: bakery.adb, Bake: found 0 times instead of once:\n         Cool;",
            "19: bakery.adb, the body of Eat: found 0 times instead of once",
        )

    def test_refuses_unknown_words(self):
        self.says(f"{COOL}olds:\n         Cool;\n", 2, "6: no such word with a text: olds:")
        self.says("within: Bake\n", 2, "1: no such word with a name: within:")
        self.says("in: Bake\nold: Cool;\n", 2, "2: no such word with a name: old:")
        self.says("in Bake\n", 2, "1: neither a word nor a comment, nor a text, which is indented: in Bake")

    def test_refuses_what_lacks_something(self):
        self.says("drop:\n      Wait;\n", 2, "1: drop: follows no in:")
        self.says(f"in: Bake\nold:\n      Wait;\n\n{COOL}", 2, "2: old: has no new:")
        self.says("in: Bake\nold:\n      Wait;\n", 2, "2: old: has no new:")
        self.says("in: Bake\nold:\nnew:\n      Wait;\n", 2, "2: old: has no text")
        self.says("in: Bake\nnew:\n      Wait;\n", 2, "2: new: follows no old:, before: or after:")
        self.says("in: Bake\n# Why.\n      Wait;\n", 2, "3: this text follows no word")
        self.says(f"{COOL}part: none.adb\n", 2, "6: there are no lines in parts/none.adb")
        self.says("part: loop.adb\n", 2, "1: part: is in no new text")


class Sources(Folder):
    """What make.sh --sources puts into a folder, with a GNAT that is made up."""

    def setUp(self):
        super().setUp()
        for name in ("make.sh", "change.awk"):
            shutil.copy(ADA / name, self.folder)
        self.put_gnat("12.2.0")
        self.write("gnat/s-tpobop.adb", UNIT)
        self.write("changes/s-tpobop.adb.edit", COOL)
        self.made = self.folder / "made"

    def put_command(self, name, *said):
        """Makes a command that says this."""
        self.write(f"bin/{name}", "#!/bin/sh\n" + "".join(f"echo '{line}'\n" for line in said)).chmod(0o755)

    def put_gnat(self, version, prefix=""):
        """Makes a GNAT of the version."""
        self.put_command(f"{prefix}gnatls", f"GNATLS {version}", "Source Search Path:", f"   {self.folder}/gnat")

    def make(self, *words):
        """The status, and what is said."""
        path = f"{self.folder}/bin:{os.environ['PATH']}"
        done = subprocess.run([self.folder / "make.sh", "--sources", self.made, *words], capture_output=True, text=True, env={"PATH": path})
        return done.returncode, done.stderr.replace(f"{self.folder}/", "")

    def test_has_units_and_differences(self):
        self.made.mkdir()
        self.assertEqual(self.make()[0], 0)
        self.assertEqual(sorted(path.name for path in self.made.iterdir()), ["changes.diff", "s-tpobop.adb"])
        self.assertEqual((self.made / "s-tpobop.adb").read_text(), UNIT.replace("Cool", "Rest"))
        self.assertIn("\n-         Cool;\n+         Rest;\n", (self.made / "changes.diff").read_text())

    def test_leaves_a_folder_that_has_something(self):
        self.write("made/mine", "")
        self.assertEqual(self.make(), (4, "pobj ada: made exists, and isn't empty\n"))
        self.assertEqual([path.name for path in self.made.iterdir()], ["mine"])

    def ends(self, *said, words=()):
        """Checks that this is said, and nothing is made."""
        self.assertEqual(self.make(*words), (4, "".join(f"pobj ada: {line}\n" for line in said)))
        self.assertEqual(list(self.folder.glob("made*")), [])

    def test_takes_each_version(self):
        self.put_gnat("11.3.0")
        self.assertEqual(self.make()[0], 0)

    def test_ends_if_the_version_is_another(self):
        for version in ("11.2.0", "12.20.0", "13.2.0"):
            self.put_gnat(version)
            self.ends(f"this runtime is made from that of GNAT 12.2 or 11.3, and the one found is GNATLS {version}")

    def test_takes_a_cross_compiler_by_its_prefix(self):
        self.put_gnat("13.2.0")
        self.put_gnat("12.2.0", "hal9000-")
        self.put_command("hal9000-gcc")
        self.assertEqual(self.make("hal9000-")[0], 0)

    def test_names_the_packages_that_are_missing(self):
        need = "what compiles for hal9000 isn't all here; on Debian 12: sudo apt-get install"
        self.ends(f"{need} gnat-12-hal9000 gcc-hal9000", words=["hal9000-"])
        self.put_gnat("12.2.0", "hal9000-")
        self.ends(f"{need} gcc-hal9000", words=["hal9000-"])

    def test_ends_if_the_sources_are_others(self):
        self.write("changes/s-other.adb.edit", COOL)
        self.write("gnat/s-tpobop.adb", UNIT.replace("Cool", "Chill"))
        self.ends(
            "there is no s-other.adb in gnat",
            "changes/s-tpobop.adb.edit:2: gnat/s-tpobop.adb, Bake: found 0 times instead of once:\n         Cool;",
            "the sources in gnat aren't those of GNAT 12.2 that this runtime is made from",
        )
        self.put_gnat("11.3.0")
        self.assertIn("aren't those of GNAT 11.3 that", self.make()[1])

    def test_ends_if_a_file_of_changes_is_wrong(self):
        self.write("changes/s-tpobop.adb.edit", "olds:\n")
        self.ends("changes/s-tpobop.adb.edit:1: no such word with a text: olds:", "the changes in changes can't be made")


if __name__ == "__main__":
    counted.main()
