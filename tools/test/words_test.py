# SPDX-License-Identifier: MIT
"""Tests of what looks for words not to use, words.py, on small files. The last line is 'N passed, M failed'."""

import pathlib
import sys
import tempfile
import unittest

sys.dont_write_bytecode = True

import counted
import words

# A phrase that words.py knows, put together so that it doesn't find it here.
BAD = "so" + " many"


class Words(unittest.TestCase):
    """What is found in a file."""

    def found_in(self, name, text):
        """The numbers of the lines of a file with this text in which something is found."""
        with tempfile.TemporaryDirectory() as folder:
            path = pathlib.Path(folder) / name
            path.write_text(text)
            return [int(fault.removeprefix(f"{path}:").partition(":")[0]) for fault in words.faults(path)]

    def test_finds_comments_of_code(self):
        self.assertEqual(self.found_in("it.rt", f"//! {BAD}\n\n/// {BAD}\nfn it() {{}} // {BAD}\n"), [1, 3, 4])

    def test_finds_comments_of_definitions_and_scripts(self):
        self.assertEqual(self.found_in("it.antt", f"-- {BAD}\nabbrev x : Y\n"), [1])
        self.assertEqual(self.found_in("it.sh", f"# {BAD}\necho\n"), [1])
        self.assertEqual(self.found_in("it.py", f'def it():\n    """{BAD}"""\n'), [2])

    def test_finds_pages(self):
        self.assertEqual(self.found_in("it.md", f"# It\n\nThere are {BAD}.\n"), [3])

    def test_leaves_out_code(self):
        self.assertEqual(self.found_in("it.rt", f'let it = "{BAD}";\n'), [])
        self.assertEqual(self.found_in("it.sh", f'it="{BAD}"\n'), [])
        self.assertEqual(self.found_in("it.md", f"```\n{BAD}\n```\n"), [])

    def test_leaves_out_the_same_words_for_a_place(self):
        self.assertEqual(self.found_in("it.md", "The value behind the lock, and where files are, if that many are there.\n"), [])


if __name__ == "__main__":
    counted.main()
