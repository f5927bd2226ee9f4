"""Tests of runs that sfi-gdb goes back: `tools/unit_tests.py tools test_gdb_history.py`. What is wanted are the states of runs that
are made forward alone, step by step. They are skipped where the compiler, the program or the library of the runtime isn't there."""
import os
import random
import subprocess
import unittest
from unittest import mock

import libraries
from testing import GCC, SFI, SFI_CC, Folder, formats_due, needs

from suygapid.elf.elf import Elf
from suygapid.gdb import history, stepping
from suygapid.gdb.answers import Answers
from suygapid.gdb.history import History, Interrupted, Moment
from suygapid.gdb.stepping import Until
from sfi_run import Call, Exited, World
from sfi_run.console import Console

READY = os.access(SFI, os.X_OK) and (os.path.exists(libraries.built("sfi_run")) or "SFI_RUN_LIBRARY" in os.environ)
GIVEN = b"abcdefgh"
# It reads, writes, posts to itself and takes, and counts a variable up and down.
PROGRAM = """#include "gates.h"
volatile int depth;
char line[4];
__attribute__((noinline)) static int down(int n) {
    depth++;
    int found = n ? down(n - 1) + n : line[1];
    depth--;
    return found;
}
int main(void) {
    int total = 0;
    for (int k = 0; k < 3; k++) {
        put(line, get(line, 2));
        post_word(0, down(k));
        yield_turn();
        total += take_word().word;
    }
    return total;
}
"""


class Plain:
    """A run that is made forward, with what is written before some steps."""

    def __init__(self, image, writes=()):
        self.world = World(image)
        self.box, self.console, self.writes = self.world[0], Console(self.world, GIVEN), dict(writes)

    def state(self):
        region = self.box.data
        return self.box.registers, self.box.read(region.base, region.size)

    def steps(self):
        """Each state, up to that after the last step."""
        while not isinstance(self.box.event, Exited):
            if self.box.steps in self.writes:
                self.box.write(*self.writes[self.box.steps])
            yield self.state()
            self.console.turn(self.box, 1)
        yield self.state()


def never():
    return False


@needs(GCC)
@unittest.skipUnless(READY, "sfi or the library of the runtime isn't built")
class Histories(Folder):
    @classmethod
    def setUpClass(cls):
        super().setUpClass()
        if "SFI_RUN_LIBRARY" not in os.environ:
            patched = mock.patch.dict(os.environ, SFI_RUN_LIBRARY=libraries.make("sfi_run")[1])
            patched.start()
            cls.addClassCleanup(patched.stop)

    def programs(self):
        """An ELF file and its image in each format."""
        source = self.write("program.c", PROGRAM)
        for image_format in formats_due(0, 1):
            subprocess.run([SFI_CC, "--program", SFI, "--format", image_format, "--keep", self.path("program.elf"), "-Og", "-o",
                            self.path("program.image"), source], check=True)
            yield Elf(self.path("program.elf")), (self.room / "program.image").read_bytes()

    def begun(self, image):
        self.put = []
        return History(World(image), Answers(image, GIVEN), self.put.append)

    def ended(self, run):
        while not isinstance(run.forward(), Exited):
            pass
        return run

    def test_each_time(self):
        """With few checkpoints, many and none but the first; the times in any order."""
        for _, image in self.programs():
            wanted = list(Plain(image).steps())
            times = random.Random(1).sample(range(len(wanted)), len(wanted))
            for between, most, close in ((7, 4, 5), (20, 100, 1), (10000, 2, 10000)):
                with mock.patch.multiple(history, BETWEEN=between, CHECKPOINTS=most, CLOSE=close):
                    run = self.ended(self.begun(image))
                    self.assertEqual(run.time, len(wanted) - 1)
                    for time in times[:200]:
                        run.go_to(min(time, len(wanted) - 2))
                        self.assertEqual((run.time, run.box.registers, run.checkpoint().data),
                                         (min(time, len(wanted) - 2), *wanted[min(time, len(wanted) - 2)]))
                    self.assertEqual(b"".join(self.put), GIVEN[:6])  # what is done again puts nothing

    def test_another_way(self):
        """What is written in the past counts, and the console has answered no more than it had then."""
        for elf, image in self.programs():
            calls = [time for time, state in enumerate(Plain(image).steps()) if state[0].pc in elf.gates()]
            change = elf.symbol("line"), b"xy"
            other = Plain(image, [(calls[1], change)])
            wanted = list(other.steps())
            run = self.ended(self.begun(image))
            before = len(b"".join(self.put))
            run.go_to(calls[1])  # a put of what was read
            run.write(*change)
            self.ended(run)
            self.assertEqual(b"".join(self.put)[before:], b"xycdef")
            self.assertEqual((run.time, run.box.event), (len(wanted) - 1, other.box.event))
            for time in (calls[1] - 1, calls[1], calls[1] + 1, calls[4]):
                run.go_to(time)
                self.assertEqual(run.box.registers, wanted[time][0])

    def test_back(self):
        """Each change of a variable and each call of a function, from the last to the first."""
        for elf, image in self.programs():
            depth, down = elf.symbol("depth"), elf.symbol("down")
            plain, moments, before = Plain(image), [], None
            for time, (registers, _) in enumerate(plain.steps()):
                now = plain.box.read(depth, 4)
                if before not in (None, now):
                    moments.append(Moment(time - 1, depth))
                if registers.pc == down:
                    moments.append(Moment(time))
                before = now
            self.assertEqual(len(moments), 3 * (1 + 2 + 3))
            with mock.patch.object(history, "BETWEEN", 50):
                run = self.ended(self.begun(image))
            found = list(iter(lambda: run.back(Until([down], [(depth, 4)]), never), None))
            self.assertEqual(found, moments[::-1])
            self.assertEqual(run.time, 0)

    def test_interrupt(self):
        for elf, image in self.programs():
            run = self.ended(self.begun(image))
            run.go_to(run.time - 1)
            now = run.time
            with self.assertRaises(Interrupted):
                run.back(Until([elf.symbol("down")]), lambda: True)
            self.assertEqual(run.time, now)

    @needs("cc")
    def test_steps(self):
        """In C and in Python a run ends at the same steps."""
        self.assertIsNotNone(stepping.in_c())
        for elf, image in self.programs():
            start, depth, down = (elf.symbol(name) for name in ("_sfi_start", "depth", "down"))
            untils = [Until([down]), Until((), [(depth, 4)]), Until([down, start], [(depth + 1, 1), (depth, 1)]),
                      Until((), (), (start, down)), Until((), [(depth, 4)], (down, down + 64)), Until()]
            for until in untils:
                found = []
                for step in (lambda box, steps: stepping.step_in_c(stepping.in_c(), box, until, steps),
                             lambda box, steps: stepping.step_in_python(box, until, steps)):
                    plain, times = Plain(image), []
                    while not isinstance(plain.box.event, Exited):
                        if isinstance(plain.box.event, Call):
                            plain.console.turn(plain.box, 1)
                        step(plain.box, 40)
                        times.append(plain.box.steps)
                    found.append(times)
                self.assertEqual(*found)


if __name__ == "__main__":
    unittest.main()
