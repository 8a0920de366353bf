# SPDX-License-Identifier: MIT
"""Builds the tests of ACATS: writes their units into files of their own, and has gnatmake compile and link them."""

import shutil
import subprocess

import acats_source
import programs

OPTIONS = ["-gnatws", "-gnat95", "-O2"]
# The parts of ACATS's support, besides the foundations, that tests of tasks need.
SUPPORT = {"enumchek", "fcndecl", "impdef", "lencheck", "repbody", "repspec", "spprt13s", "tctouch"}
FOUNDATIONS = "f*.a"
# What has to be there after the support is compiled. Some of the rest belongs to other tests, and may be missing.
NEEDED = ("report.o", "impdef.o")


def chop(folder, paths):
    """Writes each unit of the files into a file of the folder, with the name that GNAT expects."""
    texts = folder / "texts"
    texts.mkdir(parents=True)
    for path in paths:
        text = acats_source.filled(acats_source.text_of(path), folder.parent)
        text = acats_source.expanded(text) if path.suffix == ".tst" else text
        (texts / f"{path.stem}.ada").write_text(text, encoding="latin-1")
    names = [f"texts/{path.stem}.ada" for path in paths]
    what = f"{paths[0].name} can't be taken apart"
    acats_source.quietly(["gnatchop", "-c", "-w", "-q", *names], folder, what, programs.Failed)


def main_of(folder, name):
    """Returns the main program of a test: its name is that of the test, or begins with it."""
    found = [folder / f"{name}.adb", *sorted(folder.glob(f"{name}*m.adb")), *sorted(folder.glob(f"{name}?.adb"))]
    return next((file for file in found if file.exists()), None)


class Linking:
    """A way to link programs: with GNAT's shared libraries, or with the static ones of a runtime folder."""

    def __init__(self, name, runtime=None):
        """Makes a way of this name, with a folder of its own."""
        self.folder = acats_source.OUT / name
        self.support = self.folder / "support"
        self.first = [] if runtime is None else [f"--RTS={runtime}"]
        self.last = ["-bargs", "-shared" if runtime is None else "-static"]

    def gnatmake(self, folder, words, last=()):
        """Runs gnatmake in the folder."""
        words = ["gnatmake", "-q", *self.first, *OPTIONS, f"-I{self.support}", *words, *last]
        return subprocess.run(
            words, cwd=folder, stdin=subprocess.DEVNULL, stdout=subprocess.PIPE, stderr=subprocess.STDOUT,
            text=True, errors="replace",
        )

    def prepare(self):
        """Compiles the support of ACATS from scratch."""
        shutil.rmtree(self.folder, ignore_errors=True)
        paths = sorted((acats_source.SOURCE / "support").iterdir())
        chop(self.support, [path for path in paths if path.match(FOUNDATIONS) or path.stem in SUPPORT])
        # The package for what an implementation defines names the object file of this source.
        foreign = acats_source.SOURCE / "tests/cd/cd300051.c"
        what = "the support of ACATS can't be compiled"
        acats_source.quietly(["gcc", "-c", str(foreign)], self.support, what, programs.Failed)
        units = sorted(file.name for file in self.support.glob("*.ad[bs]"))
        ended = self.gnatmake(self.support, ["-c", "-k", "-gnatE", *units])
        if not all((self.support / name).exists() for name in NEEDED):
            raise programs.Failed(f"{what}:\n{ended.stdout[-2000:]}")

    def build(self, name, paths, options):
        """Builds a test. Returns its program, or None if it can't be built, and what gnatmake says."""
        folder = self.folder / name
        chop(folder, paths)
        main = main_of(folder, name)
        if main is None:
            return None, "no unit is the main program\n"
        ended = self.gnatmake(folder, [*options, main.name], self.last)
        return (main.with_suffix("") if ended.returncode == 0 else None), ended.stdout

    def remove(self, name):
        """Removes the folder in which a test was built."""
        shutil.rmtree(self.folder / name, ignore_errors=True)
