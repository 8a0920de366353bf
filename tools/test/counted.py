# SPDX-License-Identifier: MIT
"""Runs tests of Python, and says as the last line 'N passed, M failed'."""

import sys
import unittest


def main():
    """Runs the tests of the module that was started, and ends with status 0 if all passed."""
    result = unittest.main(exit=False, verbosity=0).result
    wrong = len(result.failures) + len(result.errors)
    print(f"{result.testsRun - min(wrong, result.testsRun)} passed, {wrong} failed")
    sys.exit(1 if wrong else 0)
