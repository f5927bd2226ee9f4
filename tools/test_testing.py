"""Tests of how tests say what isn't there, and take turns: `tools/unit_tests.py tools test_testing.py`."""
import os
import pathlib
import subprocess
import tempfile
import unittest
from unittest import mock

import testing
from testing import CLANG, FLOATS, GCC, NEWLIB, lacking

ARM = "aarch64-linux-gnu-gcc"
TWO = "riscv64-unknown-elf-as and riscv64-unknown-elf-ld aren't there"
# By what is looked for, what isn't there: some names, and what is said.
ROWS = [
    ((GCC, CLANG, NEWLIB), (), ""),
    ((GCC,), ("clang", "newlib-source"), ""),
    ((GCC,), ("riscv64-unknown-elf-ld",), "riscv64-unknown-elf-ld isn't there"),
    ((CLANG,), ("riscv64-unknown-elf-as", "riscv64-unknown-elf-ld"), TWO),
    (("gcc", CLANG), ("llc", "gcc"), "gcc and llc aren't there"),
    ((GCC,), (GCC, "riscv64-unknown-elf-as", "riscv64-unknown-elf-ld"), f"{GCC}, {TWO}"),
    ((NEWLIB,), (GCC, "newlib-source"), "Debian's package newlib-source isn't there"),
    ((NEWLIB, FLOATS), ("gcc-12-source",), "Debian's package gcc-12-source isn't there"),
    ((GCC, NEWLIB), (GCC, "gcc-12-source"), f"{GCC} and Debian's package gcc-12-source aren't there"),
    ((ARM, "qemu-aarch64"), (ARM,), f"{ARM} with a C library isn't there"),
    ((ARM, "qemu-aarch64"), (ARM, "qemu-aarch64"), f"{ARM} with a C library and qemu-aarch64 aren't there"),
]


class Lacking(unittest.TestCase):
    def test_what_is_said(self):
        for names, absent, wanted in ROWS:
            with mock.patch("testing.is_there", lambda name, absent=absent: name not in absent):
                self.assertEqual(lacking(*names), wanted)

    def test_for_shells(self):
        done = subprocess.run([testing.TOOLS / "testing.py", "none-of-this-name", "sh"], capture_output=True, check=True)
        self.assertEqual(done.stdout, b"none-of-this-name isn't there\n")

    def test_a_compiler_wants_its_library(self):
        self.addCleanup(testing.makes_programs.cache_clear)
        for text, is_there in (("exit 0", True), ("echo 'stdio.h: No such file or directory' >&2; exit 1", False), (None, False)):
            testing.makes_programs.cache_clear()
            with tempfile.TemporaryDirectory() as room, mock.patch.dict(os.environ, PATH=room):
                if text:
                    path = pathlib.Path(room, ARM)
                    path.write_text(f"#!/bin/sh\n{text}\n", encoding="ascii")
                    path.chmod(0o755)
                self.assertEqual(testing.is_there(ARM), is_there, text)


class Turns(unittest.TestCase):
    def test_all_have_their_turn(self):
        for things, count in (("abcdefg", 2), ("abcd", 2), ("abc", 1)):
            found = []
            for commits in range(len(things)):
                with mock.patch("testing.commits", lambda commits=commits: commits), mock.patch.dict(os.environ, clear=True):
                    found += testing.by_turns(things, count)
            self.assertEqual({it: found.count(it) for it in things}, dict.fromkeys(things, count))
        with mock.patch.dict(os.environ, {testing.EACH_FORMAT: "1"}):
            self.assertEqual(testing.by_turns("abc", 1), ["a", "b", "c"])
