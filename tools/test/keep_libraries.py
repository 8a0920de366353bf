#!/usr/bin/env python3
# SPDX-License-Identifier: MIT
"""For each library that `rt ci` built in a copy of the crates, the folder given, notes from which sources it was built, as `rt lib` does.
So later steps in this copy use what was just proved, and nothing is proved twice."""

import importlib.machinery
import importlib.util
import os
import pathlib
import shutil
import sys


def command():
    """The module of the command rt."""
    path = os.path.realpath(shutil.which("rt"))
    sys.path.insert(0, os.path.dirname(path))
    loader = importlib.machinery.SourceFileLoader("rt", path)
    module = importlib.util.module_from_spec(importlib.util.spec_from_loader("rt", loader))
    loader.exec_module(module)
    return module


def main(folder):
    """Notes each library that is there."""
    sys.dont_write_bytecode = True
    os.chdir(folder)
    for crate in command().crates_of(os.getcwd()):
        if os.path.isdir(crate.rlib):
            pathlib.Path(crate.rlib).with_name("stamp").write_text(crate.stamp())


if __name__ == "__main__":
    main(sys.argv[1])
