"""Tests of views of a sandbox's data, and of which engine a world has. With libsfi_run_native there are views of data of whole pages."""
import unittest

from test_sfi_run import SMALLEST, built  # which also finds the package
import sfi_run
from sfi_run import _library
from sfi_run.console import Console

HAS_NATIVE = _library.default().engine is not None
# Adds the two words of its data, again and again, and yields.
ADDS = """
.sandbox 4096
.gate yield 3
        la   s0, words
again:  lw   t0, 0(s0)
        lw   t1, 4(s0)
        add  t0, t0, t1
        sw   t0, 0(s0)
        call yield
        j    again
.data
words:  .word 1, 2
"""


class Views:
    """Those of a native world."""

    def setUp(self):
        self.image = built(ADDS)
        self.world = sfi_run.World(self.image)
        self.addCleanup(self.world.close)
        self.sandbox = self.world[0]
        self.at = self.sandbox.data.base

    def test_it_is_the_data(self):
        view = self.sandbox.view(self.at, 8)
        words = view.cast("I")
        self.assertEqual((list(words), self.sandbox.read(self.at, 8)), ([1, 2], bytes(view)))
        words[1] = 40
        self.sandbox.write(self.at, b"\x02")
        self.assertEqual(list(words), [2, 40])
        words.release()
        call = self.sandbox.turn(100)
        self.assertRaises(ValueError, lambda: view[0])
        self.assertEqual(self.sandbox.view(self.at, 4).tobytes(), b"\x2a\0\0\0")
        call.reply(0)

    def test_it_ends(self):
        ends = (lambda: self.sandbox.turn(5), lambda: self.sandbox.until([self.at], 5), self.sandbox.reset,
                lambda: Console(self.world).turn(self.sandbox, 5), lambda: list(self.sandbox.events(5)), self.world.close)
        for end in ends:
            view = self.sandbox.view(self.at, 4096)
            part, steps = view[4:8], self.sandbox.steps
            self.assertRaises(BufferError, end)
            self.assertEqual((self.sandbox.steps, part[0]), (steps, self.sandbox.read(self.at + 4, 1)[0]))
            part.release()
            end()
            self.assertRaises(ValueError, view.tobytes)

    def test_what_is_dropped(self):
        for _ in range(100):
            self.sandbox.view(self.at, 100)[3:50]
        self.sandbox.turn(5)
        self.assertEqual(self.world._views, [])

    def test_addresses(self):
        self.assertEqual(len(self.sandbox.view(self.at + 4096, 0)), 0)
        for at, count in ((self.at - 1, 2), (self.at, 4097), (self.at + 4095, 2), (self.at + 4097, 0), (self.at, -1), (0, 1), (1 << 40, 1)):
            self.assertRaises(sfi_run.OutsideData, self.sandbox.view, at, count)
        other = sfi_run.World(self.image)[0]
        other._world.close()
        self.assertRaises(IndexError, other.view, self.at, 1)


if HAS_NATIVE:
    class NativeViews(Views, unittest.TestCase):
        pass


class Engines(unittest.TestCase):
    def test_the_interpreter_has_no_views(self):
        with sfi_run.World(SMALLEST) as world:
            self.assertEqual(world.engine, "interpreter")
            self.assertRaises(NotImplementedError, world[0].view, world[0].data.base, 1)
        self.assertRaises(ValueError, lambda: world.engine)

    def test_whole_pages_are_native_where_the_library_is(self):
        with sfi_run.World(built(ADDS)) as world:
            self.assertEqual(world.engine, "native" if HAS_NATIVE else "interpreter")


if __name__ == "__main__":
    unittest.main()
