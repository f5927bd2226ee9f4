#!/usr/bin/env python3
"""What the tests share: the program and the compilers that they run, what of these isn't there, and a folder for what a test makes.

    tools/testing.py NAME ..     # prints what of these isn't there, as `lacking` has it, or nothing; for tests in shell
"""
import functools
import os
import pathlib
import shutil
import subprocess
import sys
import tempfile
import unittest

from suygapid.image.layout import NAMED
from suygapid.library.sources import GCC_SOURCE, NEWLIB_SOURCE
from suygapid.passes.typed import USUAL

TOOLS = pathlib.Path(__file__).resolve().parent
TOP = TOOLS.parent
SFI = os.environ.get("SFI", str(TOP / "crates" / "sfi" / "out" / "sfi"))
SFI_CC, SFI_IMAGE = str(TOOLS / "sfi-cc"), str(TOOLS / "sfi-image")
GCC, CLANG = "riscv64-unknown-elf-gcc", "clang"
PICOLIBC = "/usr/lib/picolibc/riscv64-unknown-elf"
OF_BINUTILS = ("riscv64-unknown-elf-as", "riscv64-unknown-elf-ld")
FORMATS = tuple(NAMED)
EACH_FORMAT = "EACH_FORMAT"  # in the environment: what compilers make is tried in each format, as by ./test --all
SOURCES = {it.name: it for it in (GCC_SOURCE, NEWLIB_SOURCE)}
# By what tests name, what that stands on: the compilers of sandboxes, and what sfi-cc compiles of sources when it is first wanted.
FLOATS, NEWLIB = "floating point", "newlib"
PARTS = {GCC: (GCC, *OF_BINUTILS), CLANG: (CLANG, "llc", *OF_BINUTILS), FLOATS: (GCC_SOURCE.name,), NEWLIB: (NEWLIB_SOURCE.name, GCC_SOURCE.name)}
# The compilers of hosts for other machines: the C library of each, with its headers, is in a package of its own.
OF_HOSTS = ("aarch64-linux-gnu-gcc", "arm-linux-gnueabihf-gcc", "riscv64-linux-gnu-gcc", "x86_64-w64-mingw32-gcc")
WITH_LIBRARY = b"#include <stdio.h>\n#include <stdlib.h>\n#include <string.h>\nint main(void) { return printf(\"%s\", getenv(\"HOME\")) < 0; }\n"


@functools.cache
def makes_programs(compiler):
    """Whether a compiler is there with a C library: whether it makes a program that is linked with that, as hosts are."""
    with tempfile.TemporaryDirectory() as room:
        words = [compiler, "-static", "-x", "c", "-", "-o", os.path.join(room, "program")]
        return shutil.which(compiler) is not None and subprocess.run(words, input=WITH_LIBRARY, capture_output=True, check=False).returncode == 0


def is_there(name):
    """Whether a command, also by its path, a folder by its path, or one of Debian's packages of sources, is there."""
    if name in SOURCES:
        return SOURCES[name].where() is not None
    if name in OF_HOSTS:
        return makes_programs(name)
    return os.path.isabs(name) and os.path.isdir(name) or shutil.which(name) is not None


def lacking(*names):
    """What of these commands, folders, packages of sources and names of PARTS isn't there: words that say so, or none."""
    wanted = [part for name in names for part in PARTS.get(name, (name,))]
    missing = list(dict.fromkeys(it for it in wanted if not is_there(it)))
    said = {it: f"Debian's package {it}" for it in SOURCES} | {it: f"{it} with a C library" for it in OF_HOSTS}
    *first, last = [said.get(it, it) for it in missing] or [""]
    return f"{', '.join(first)} and {last} aren't there" if first else f"{last} isn't there" if last else ""


COMPILERS = [it for it in (GCC, CLANG) if not lacking(it)]

needs_program = unittest.skipUnless(os.access(SFI, os.X_OK), f"{SFI} isn't built")
needs_a_compiler = unittest.skipUnless(COMPILERS, lacking(GCC))


def needs(*names):
    """Skips a test, or all of a class, where one of these isn't there, or what it stands on."""
    why = lacking(*names)
    return unittest.skipIf(why, why)


def with_dask():
    """A Python that has Dask's distributed, or None."""
    for python in (sys.executable, "/usr/bin/python3"):
        if shutil.which(python) and subprocess.run([python, "-c", "import distributed"], capture_output=True, check=False).returncode == 0:
            return python
    return None


@functools.cache
def commits():
    """How many commits stand here, by which what is tried changes; 0 where git knows none."""
    ran = subprocess.run(["git", "-C", TOP, "rev-list", "--count", "HEAD"], capture_output=True, text=True, check=False)
    return int(ran.stdout) if ran.returncode == 0 else 0


def sample():
    """Which of the six samples of compilers' tests is tried, in turns by the number of commits. They are fixed, so that
    what one run meets can be repeated."""
    return commits() % 6


def by_turns(things, count):
    """So many of a list's things, which the number of commits says: all of them in turn. By ./test --all each time all."""
    things = list(things)
    if os.environ.get(EACH_FORMAT):
        return things
    begin = count * commits() % len(things)
    return [*things, *things][begin:begin + count]


def formats_due(number, count):
    """The formats in which a test of what compilers make is tried: the usual one each time, and the others by turns. `count` tests,
    of which this is the one of a number, take turns."""
    turn, after = commits(), {"1": 0, "2": count // 2, "words": count // 4}
    if not turn or os.environ.get(EACH_FORMAT):
        return FORMATS
    return tuple(it for it in FORMATS if it == USUAL or (turn + number + after[it]) % count == 0)


class Folder(unittest.TestCase):
    """Tests with a folder of their own."""

    def setUp(self):
        room = tempfile.TemporaryDirectory()
        self.addCleanup(room.cleanup)
        self.folder = room.name
        self.room = pathlib.Path(room.name)

    def path(self, name):
        return os.path.join(self.folder, name)

    def write(self, name, text, mode=0o644):
        """The path of a new file."""
        os.makedirs(os.path.dirname(self.path(name)), exist_ok=True)
        with open(self.path(name), "w", encoding="utf-8") as file:
            file.write(text)
        os.chmod(self.path(name), mode)
        return self.path(name)

    def read(self, name):
        with open(self.path(name), encoding="utf-8") as file:
            return file.read()


if __name__ == "__main__":
    print(lacking(*sys.argv[1:]))
