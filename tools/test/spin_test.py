# SPDX-License-Identifier: MIT
"""Tests of what compares `pobj explore` with SPIN, spin.py of comparison/: what is read of both reports, whether scenes and models have
the same callers, and the table. The last line is 'N passed, M failed'."""

import pathlib
import re
import sys
import unittest
from unittest import mock

sys.dont_write_bytecode = True
sys.path.insert(0, str(pathlib.Path(__file__).resolve().parents[2] / "comparison"))

import counted
import programs
import spin

PAN = """pan:1: invalid end state (at depth 9)

(Spin Version 6.5.2 -- 6 December 2019)

State-vector 100 byte, depth reached 20, errors: 1
     2999 states, stored
     6717 states, matched
     9716 transitions (= stored+matched)
        0 atomic steps
hash conflicts:         1 (resolved)

Stats on memory usage (in Megabytes):
    0.343	equivalent memory usage for states (stored*(State-vector + overhead))
   12.871	total actual memory usage


pan: elapsed time 0 seconds
"""
CLEAN = PAN.replace("pan:1: invalid end state (at depth 9)\n", "").replace("errors: 1", "errors: 0")
EXPLORE = """callers wait for ever, after 10 commands:
    # Anna
    call Fork_1.Take
2999 situations, 9715 moves, 20 states of objects, 3557251040 orders: complete
"""
FORKS = spin.Counts(2999, 9715, True)


class Reading(unittest.TestCase):
    """What is read of the reports."""

    def test_reads_what_spin_finds(self):
        self.assertEqual(spin.counts_of_pan(PAN), FORKS)
        self.assertEqual(spin.counts_of_pan(CLEAN), spin.Counts(2999, 9715, False))

    def test_reads_large_numbers(self):
        large = CLEAN.replace("     2999 states", "1.2345678e+08 states").replace("     9716 trans", "4.5e+08 trans")
        self.assertEqual(spin.counts_of_pan(large), spin.Counts(123_456_780, 449_999_999, False))

    def test_refuses_what_spin_did_not_finish(self):
        too_deep, broken_off = "error: max search depth too small\n", "Warning: Search not completed\n"
        for said in ("", too_deep + CLEAN, broken_off + CLEAN):
            with self.assertRaises(programs.Failed):
                spin.counts_of_pan(said)

    def test_refuses_other_errors(self):
        with self.assertRaises(programs.Failed):
            spin.counts_of_pan(PAN.replace("invalid end state", "assertion violated (length<=2)"))

    def test_reads_what_pobj_finds(self):
        self.assertEqual(spin.counts_of_explore(EXPLORE), FORKS)
        self.assertEqual(spin.counts_of_explore(EXPLORE.splitlines()[-1]), spin.Counts(2999, 9715, False))

    def test_refuses_what_pobj_did_not_finish(self):
        for said in ("", EXPLORE.replace("complete", "cut off")):
            with self.assertRaises(programs.Failed):
                spin.counts_of_explore(said)


class Pairs(unittest.TestCase):
    """Whether a scene and what is defined in its model have the same callers, calls and capacity."""

    def test_models_are_there(self):
        for pair in spin.PAIRS:
            self.assertTrue(pathlib.Path(pair.words()[-1]).is_file(), pair)
            self.assertTrue((programs.TOP / pair.scene).is_file(), pair)

    def test_names_differ(self):
        self.assertEqual(len({pair.name() for pair in spin.PAIRS}), len(spin.PAIRS))

    def test_words(self):
        words = spin.of_buffer("a/b.scene", 3, 5, 2).words()
        self.assertEqual(words[:-1], ["spin", "-a", "-DPRODUCERS=3", "-DCONSUMERS=3", "-DCALLS=5", "-DCAPACITY=2"])

    def test_buffers_have_the_same_calls(self):
        for pair in (one for one in spin.PAIRS if one.model == "buffer"):
            defined, text = dict(pair.defined), (programs.TOP / pair.scene).read_text()
            wanted = [f'unit file "examples/ada/buffer.adb" {defined["CAPACITY"]}']
            values = iter(range(1, defined["PRODUCERS"] * defined["CALLS"] + 1))
            for _ in range(defined["PRODUCERS"]):
                wanted += ["caller", *(f"call Put {next(values)}" for _ in range(defined["CALLS"]))]
            wanted += ["caller", f"repeat {defined['CALLS']}", "call Get 0"] * defined["CONSUMERS"]
            found = [re.sub(r"^caller .*", "caller", line.strip()) for line in text.splitlines() if not line.startswith("#")]
            self.assertEqual(found, wanted, pair)


def run_with(seconds, megabytes, situations=2000, hangs=False):
    """A run with these numbers."""
    return spin.Run(spin.Counts(situations, 3000, hangs), seconds, megabytes)


class Table(unittest.TestCase):
    """What is printed."""

    def setUp(self):
        self.sides = {"SPIN": run_with(0.5, 14.6), "reduced": run_with(0.25, 16.2), "pobj": run_with(1.0, 3)}

    def test_takes_medians(self):
        self.assertEqual(spin.medians([run_with(3, 1), run_with(1, 2), run_with(2, 9)]), run_with(2, 2))

    def test_lines(self):
        lines = spin.table({"forks": self.sides})
        self.assertEqual(lines[0].count("|"), lines[1].count("|"))
        self.assertEqual(lines[2:], ["| forks | none | 2,000 | 3,000 | 0.500, 0.250, 1.000 | 4, 8, 2 | 15, 16, 3 | 0.50 |"])

    def test_says_what_reduction_leaves(self):
        self.assertEqual(spin.reduction({"forks": self.sides}), "Partial order reduction leaves out nothing.")
        self.sides["reduced"] = run_with(1, 1, situations=1500)
        self.assertEqual(spin.reduction({"forks": self.sides}), "Partial order reduction leaves, of situations: forks 1,500.")

    def test_fewer_states_by_reduction_are_no_difference(self):
        self.assertEqual(spin.differences({"forks": self.sides}), [])
        self.sides["reduced"] = run_with(1, 1, situations=1500)
        self.assertEqual(spin.differences({"forks": self.sides}), [])

    def test_says_what_differs(self):
        self.sides["reduced"] = run_with(1, 1, hangs=True)
        self.sides["pobj"] = run_with(1, 1, situations=2001)
        self.assertEqual(spin.differences({"forks": self.sides}), [
            "forks: SPIN finds 2,000 situations, 3,000 moves, no hang; reduced finds 2,000 situations, 3,000 moves, a hang",
            "forks: SPIN finds 2,000 situations, 3,000 moves, no hang; pobj finds 2,001 situations, 3,000 moves, no hang",
        ])


class Preparing(unittest.TestCase):
    """What has to be there first."""

    def missing(self, there, is_built):
        """What is said to be missing if these programs are there, and pobj_explore is built or not."""
        with (mock.patch.object(spin.shutil, "which", lambda name: name if name in there else None),
              mock.patch.object(spin, "TIME", __file__),
              mock.patch.object(spin.subprocess, "run", lambda words: mock.Mock(returncode=0 if is_built else 1))):
            try:
                spin.prepare()
            except programs.Missing as fault:
                return str(fault)
        return None

    def test_says_what_is_missing(self):
        self.assertIn("there is no spin; install it with: sudo apt-get install spin", self.missing(["gcc"], True))
        self.assertIn("there is no gcc", self.missing(["spin"], True))
        self.assertIn("'./pobj build explore'", self.missing(["spin", "gcc"], False))
        self.assertIsNone(self.missing(["spin", "gcc"], True))


if __name__ == "__main__":
    counted.main()
