"""Tests of build_program.py, with crates that are only named, by the toolchain's scheduler."""
import contextlib
import io
import shutil
import tempfile
import threading
import unittest

import build_program
import toolchain


class Crate:
    """A crate of `lines` lines on others, which is built with a status and prints a text."""

    begun, lock = [], threading.Lock()

    def __init__(self, name, lines, *deps, status=0, said=""):
        self.name, self.lines, self.deps, self.status, self.said = name, lines, deps, status, said
        self.folder = tempfile.gettempdir()

    def below(self):
        found = []
        for lower in self.deps:
            found += [it for it in [*lower.below(), lower] if it not in found]
        return found

    def count(self, _):
        return self.lines

    def build_rlib(self, flags, anew):
        with self.lock:
            self.begun.append((self.name, *flags))
        print(self.said, file=self.out)
        return self.status


def crates(status=0, said=""):
    """A chain of three, a long crate that one of them needs, and one on its own; each after those that it needs."""
    word = Crate("word", 10)
    alone = Crate("alone", 50)
    text = Crate("text", 100, word, status=status, said=said)
    check = Crate("check", 5, word)
    tool = Crate("tool", 20, text, check)
    return [word, alone, text, check, tool]


@unittest.skipUnless(shutil.which("rt"), "the Rattle toolchain isn't there")
class Building(unittest.TestCase):
    @classmethod
    def setUpClass(cls):
        cls.rt = toolchain.module("rt", "rt")

    def built(self, given):
        """Whether all were built, the names in the order in which they were begun, and what was told."""
        Crate.begun.clear()
        build_program.os.environ["RT_JOBS"] = "1"
        self.addCleanup(build_program.os.environ.pop, "RT_JOBS", None)
        log, told = io.StringIO(), io.StringIO()
        with contextlib.redirect_stdout(log), contextlib.redirect_stderr(told):
            is_built = build_program.Build(given).libraries(self.rt)
        return is_built, [name for name, *_ in Crate.begun], told.getvalue()

    def test_the_longest_chain_is_begun_first(self):
        is_built, begun, told = self.built(crates())
        self.assertTrue(is_built)
        self.assertEqual(begun, ["word", "text", "alone", "check", "tool"])
        self.assertRegex(told, r"sfi: tool is proved \(5 of 6 crates, \d+ s\)\n\Z")

    def test_nothing_is_built_on_what_failed(self):
        said = "crate text: a line\nsrc/lib.rt:3:5: error: the reason\nrt: chose --jobs 1\nstatements of a library"
        is_built, begun, told = self.built(crates(1, said))
        self.assertFalse(is_built)
        self.assertEqual(begun, ["word", "text", "alone", "check"])
        self.assertIn("src/lib.rt:3:5: error: the reason\nsfi: text failed, as the lines above say\n", told)
        self.assertNotIn("statements", told)

    def test_without_a_line_of_an_error_the_last_lines_are_told(self):
        _, _, told = self.built(crates(-9, "one\ntwo"))
        self.assertIn("one\ntwo\nsfi: text failed", told)
