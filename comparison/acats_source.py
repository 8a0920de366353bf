# SPDX-License-Identifier: MIT
"""Fetches the tests of ACATS from GCC's source, which is a package of Debian. Nothing of it is in this repository."""

import pathlib
import re
import shutil
import struct
import subprocess

import programs

PACKAGE = "gcc-12-source"
INSTALLED = pathlib.Path("/usr/src/gcc-12")
ARCHIVE = "gcc-12*.tar.*"
OUT = programs.OUT / "acats"
# The folder with `support` and `tests` of ACATS, and the lists of tests that need an option.
SOURCE = OUT / "source"
INSIDE = "*/gcc/testsuite/ada/acats"
# The names that GCC's texts have instead of values, and the values on this machine, of 64 or 32 bits.
FOLDER = "ACATS4GNATDIR"
BITS = struct.calcsize("P") * 8
WIDEST = 2 * BITS - 1
VALUES = {
    "ACATS4GNATBIT": str(BITS),
    "ACATS4GNATINSN": "nop",
    "ACATS4GNATMAXINT": str(2**WIDEST - 1),
    "ACATS4GNATMININT": str(-(2**WIDEST)),
}
# The options of the tests that these lists name.
LISTS = {
    "overflow.lst": "-gnato",
    "elabd.lst": "-gnatE",
    "floatstore.lst": "-ffloat-store",
    "stackcheck.lst": "-fstack-check",
}
DEFINITION = re.compile(r"^([A-Z]\w*)[ \t]+(\S.*?)\s*$", re.MULTILINE)
MACRO = re.compile(r"\$([A-Z]\w*)")


def text_of(file):
    """Returns the text of a file of ACATS."""
    return file.read_text(encoding="latin-1")


def quietly(words, folder, what, kind=programs.Missing):
    """Carries out the words in the folder. If that fails, raises a fault of this kind, with the last lines that they wrote."""
    try:
        ended = subprocess.run(words, cwd=folder, capture_output=True, text=True, errors="replace")
    except FileNotFoundError as fault:
        raise kind(f"{what}; there is no {words[0]}") from fault
    if ended.returncode != 0:
        last = "\n".join((ended.stdout + ended.stderr).strip().splitlines()[-5:])
        raise kind(f"{what}; {' '.join(words)} says:\n{last}")


def archive_in(folder):
    """Returns the archive of GCC's source in the folder, or None if it isn't there."""
    return next(iter(sorted(folder.glob(ARCHIVE))), None)


def downloaded():
    """Downloads the package into a folder of ours by apt-get, without root, and returns the archive of GCC's source."""
    folder = OUT / "package"
    shutil.rmtree(folder, ignore_errors=True)
    folder.mkdir(parents=True)
    programs.say(f"{PACKAGE} isn't installed, and is downloaded (80 MB)")
    install = f"sudo apt-get update && sudo apt-get install {PACKAGE}"
    what = f"ACATS is in Debian's package {PACKAGE}, which can't be downloaded ({install} installs it)"
    quietly(["apt-get", "download", PACKAGE], folder, what)
    file = next(iter(folder.glob("*.deb")), None)
    if file is None:
        raise programs.Missing(f"{what}; apt-get has written no file")
    quietly(["dpkg-deb", "-x", file.name, "."], folder, what)
    return archive_in(folder / INSTALLED.relative_to("/"))


def fetch():
    """Unpacks ACATS if that hasn't been done yet. The folder gets its name last, so one that is there is complete."""
    if SOURCE.exists():
        return
    archive = archive_in(INSTALLED) or downloaded()
    if archive is None:
        raise programs.Missing(f"{PACKAGE} has no {ARCHIVE}")
    part = OUT / "source.part"
    shutil.rmtree(part, ignore_errors=True)
    part.mkdir(parents=True)
    words = ["tar", "-x", "-f", str(archive), "--wildcards", "--strip-components=5", INSIDE]
    quietly(words, part, f"{archive} can't be unpacked")
    if not (part / "support").exists() or not (part / "tests").exists():
        raise programs.Missing(f"{archive} has no {INSIDE} with ACATS in it")
    part.rename(SOURCE)
    shutil.rmtree(OUT / "package", ignore_errors=True)


def filled(text, folder):
    """Returns the text with the values of this machine. The folder is the one in which ACATS is compiled."""
    text = text.replace(FOLDER, str(folder))
    for place, value in VALUES.items():
        text = text.replace(place, value)
    return text


def macros():
    """Returns the values of ACATS's macros by name."""
    return dict(DEFINITION.findall(filled(text_of(SOURCE / "support/macro.dfs"), OUT)))


def expanded(text):
    """Returns the text of a `.tst` file with its macros replaced, as by ACATS's own program macrosub. A few macros, which
    macrosub computes and no test of tasks uses, are left as they are."""
    values = macros()
    return MACRO.sub(lambda name: values.get(name[1], name[0]), text)


def options():
    """Returns the compiler's options by the name of the test that needs them."""
    wanted = {}
    for name, option in LISTS.items():
        for line in text_of(SOURCE / name).split():
            wanted.setdefault(line, []).append(option)
    return wanted
