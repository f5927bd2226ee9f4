"""Tests of the package: `[SFI=PATH] python3 -m unittest discover tests`. The addresses, registers and numbers that are wanted
are those of docs/IMAGE.md and docs/GATES.md."""
import concurrent.futures
import gc
import os
import pathlib
import shutil
import subprocess
import sys
import threading
import unittest
from unittest import mock

HERE = pathlib.Path(__file__).resolve().parent
sys.path.insert(0, str(HERE.parent))
import sfi_run
from sfi_run.console import Console
from sfi_run.modules import Module

SFI = os.environ.get("SFI") or shutil.which("sfi") or str(HERE.parents[2] / "crates" / "sfi" / "out" / "sfi")
CODE, DATA = 0x01000000, 0x01800000  # of the first sandbox
# One sandbox of 4096 bytes, a page as native code wants, which posts twice what it is entered with, or 5, and exits with the reply's a1.
TWICE = """
.sandbox 4096
.gate exit 0
.gate post 4
        li   a0, 5
        add  a1, a0, a0
        call post
        mv   a0, a1
        call exit
"""
# At its start it exits. sum returns the sum of its arguments, and asked the answer to a post of them.
SUM = """
.sandbox 4096
.gate post 4
.gate exit 0
        call exit
sum:    add  a0, a0, a1
        ret
asked:  mv   s0, ra
        call post
        jr   s0
"""
# It calls once, and loops then.
LOOPS = """
.sandbox 4096
.gate put 1
        li   a1, 7
        call put
on:     j    on
"""
EBREAKS = bytes.fromhex("73001000" * 64)
SMALLEST = bytes.fromhex("5346493101000000" "0000000100010000" "0000800100010000" "00000001" "00000000" "00000000") + EBREAKS


def built(source, *options):
    done = subprocess.run([SFI, "build", *options], input=source, capture_output=True, text=True, check=True)
    return bytes.fromhex(done.stdout)


class Loading(unittest.TestCase):
    def test_bytes_that_are_no_image(self):
        # docs/IMAGE.md: 1 is the magic, 3 bytes that are cut short, 11 bytes that are left
        for image, fault, name in ((b"SFI9", 1, "Magic"), (SMALLEST[:-1], 3, "Short"), (SMALLEST + b"\0", 11, "Trailing")):
            with self.assertRaises(sfi_run.NoImage) as told:
                sfi_run.World(image)
            self.assertEqual((told.exception.fault, str(told.exception)), (fault, f"the bytes are no image: layout fault {fault} {name}"))

    def test_an_image_with_broken_rules(self):
        at = SMALLEST.index(EBREAKS)
        with self.assertRaises(sfi_run.Refused) as told:
            sfi_run.World(SMALLEST[:at] + bytes.fromhex("130c1c00") * 2 + SMALLEST[at + 8:])  # addi x24, x24, 1
        self.assertEqual((told.exception.findings, told.exception.first), (2, sfi_run.Finding(0, CODE, 4)))
        self.assertEqual(str(told.exception), "rules are broken in the image: findings=2 first=V4 sandbox=0 at=01000000")

    def test_what_has_no_bytes(self):
        for image in (5, "SFI1", None, [1, 2]):
            with self.assertRaises(TypeError):
                sfi_run.World(image)
        with sfi_run.World(memoryview(SMALLEST)) as world:
            for data in (7, "text", None, [1, 2]):
                with self.assertRaises(TypeError):
                    world[0].write(DATA, data)
            world[0].write(DATA, memoryview(b"ab"))
            self.assertEqual(world[0].read(DATA, 3), b"ab\0")

    def test_a_world_of_one(self):
        with sfi_run.World(bytearray(SMALLEST)) as world:
            self.assertEqual((len(world), [it.number for it in world]), (1, [0]))
            for number in (1, -1, 1 << 40):
                with self.assertRaises(IndexError):
                    world[number]

    def test_a_closed_world(self):
        world = sfi_run.World(SMALLEST)
        sandbox = world[0]
        world.close()
        world.close()
        self.assertEqual((len(world), list(world)), (0, []))
        for use in (lambda: sandbox.turn(1), lambda: sandbox.steps, lambda: sandbox.read(DATA, 1), lambda: world[0]):
            with self.assertRaises(IndexError):
                use()

    def test_a_sandbox_keeps_its_world(self):
        sandbox = sfi_run.World(SMALLEST)[0]
        gc.collect()
        self.assertEqual(sandbox.turn(1), sfi_run.Trapped(sfi_run.Cause.BREAK, CODE))

    def test_other_threads(self):
        """One makes the world, four use it, and another one drops it."""
        with concurrent.futures.ThreadPoolExecutor(1) as pool:
            world = pool.submit(sfi_run.World, built(LOOPS)).result()
        sandbox = world[0]
        sandbox.turn(1000).reply(0)
        before = sandbox.steps
        with concurrent.futures.ThreadPoolExecutor(4) as pool:
            list(pool.map(lambda _, turn=sandbox.turn: [turn(7) for _ in range(200)], range(8)))
        self.assertEqual(sandbox.steps, before + 8 * 200 * 7)
        freed, close = [], sfi_run.World.close

        def noted(self):
            freed.append(self)
            close(self)
        with mock.patch.object(sfi_run.World, "close", noted):
            thread = threading.Thread(target=lambda it: it.clear(), args=([world, sandbox],))
            del world, sandbox
            thread.start()
            thread.join()
            del thread
            gc.collect()
        self.assertEqual(len(freed), 1)

    @unittest.skipUnless(hasattr(os, "fork"), "no fork")
    def test_a_forked_child(self):
        world = sfi_run.World(SMALLEST)
        child = os.fork()
        if child == 0:
            try:
                world[0].turn(1)
            except RuntimeError:
                os._exit(7)
            os._exit(0)
        self.assertEqual(os.waitstatus_to_exitcode(os.waitpid(child, 0)[1]), 7)
        self.assertEqual(world[0].steps, 0)

    def test_a_library_of_another_version(self):
        major, minor, patch = sfi_run.__version__.split(".")
        for version in (f"77.{minor}.{patch}", f"{major}.{int(minor) + 1}.{patch}"):
            with mock.patch.object(sfi_run, "__version__", version), self.assertRaisesRegex(OSError, "another version"):
                sfi_run.Library()
        with mock.patch.object(sfi_run, "__version__", f"{major}.{minor}.{int(patch) + 1}"):
            sfi_run.Library()

    def test_answers_that_are_unknown(self):
        library = sfi_run.Library()
        with sfi_run.World(SMALLEST, library) as world:
            for kind in (0, 6):
                with mock.patch.dict(library._functions, event=lambda *_, kind=kind: kind):
                    with self.assertRaisesRegex(RuntimeError, f"kind {kind}"):
                        world[0].event
        with mock.patch.dict(library._functions, load=lambda *_: 4):
            with self.assertRaisesRegex(RuntimeError, "status 4"):
                sfi_run.World(SMALLEST, library)

    def test_a_library_that_is_not_there(self):
        with self.assertRaisesRegex(OSError, "/none/libsfi_run.so: .*; SFI_RUN_LIBRARY has to name"):
            sfi_run.Library("/none/libsfi_run.so")


class Running(unittest.TestCase):
    def setUp(self):
        self.world = sfi_run.World(built(TWICE))
        self.addCleanup(self.world.close)
        self.sandbox = self.world[0]

    def test_the_beginning(self):
        registers = self.sandbox.registers
        wanted = {2: DATA + 4080, 24: CODE, 25: 256 - 16, 26: DATA, 27: 4095}
        self.assertEqual(registers.pc, CODE + 32)  # after the stubs of two gates
        self.assertEqual(registers.x, tuple(wanted.get(number, 0) for number in range(32)))
        self.assertEqual((self.sandbox.data, self.sandbox.event, self.sandbox.steps),
                         (sfi_run.Region(DATA, 4096), sfi_run.Ready(), 0))

    def test_a_call_and_its_reply(self):
        call = self.sandbox.turn(1000)
        self.assertEqual(call, sfi_run.Call(4, 5, 10, 0, 0, 0, 0, 0, 0, 1, CODE + 16, self.sandbox))
        steps = self.sandbox.steps
        self.assertEqual((self.sandbox.turn(1000), self.sandbox.event, self.sandbox.steps), (call, call, steps))
        call.reply(1, 77)
        self.assertEqual((self.sandbox.steps, self.sandbox.event), (steps + 1, sfi_run.Ready()))
        for again in (lambda: call.reply(1, 77), lambda: call.exit(1)):
            with self.assertRaises(sfi_run.NotWaiting):
                again()
        last = self.sandbox.turn(1000)
        self.assertEqual((last.service, last.a0), (0, 77))
        last.exit(last.a0)
        self.assertEqual(self.sandbox.event, sfi_run.Exited(77))

    def test_stops_and_registers(self):
        self.assertEqual(self.sandbox.until([], 1), sfi_run.Ready())
        self.assertEqual(self.sandbox.until([0, CODE + 16], 1000).service, 4)
        kept = self.sandbox.registers
        call = self.sandbox.event
        self.sandbox.stop()
        self.sandbox.registers = kept
        with self.assertRaises(sfi_run.NotWaiting):
            call.reply(1)
        self.assertEqual((self.sandbox.event.service, self.sandbox.registers), (4, kept))
        for pc, number in ((CODE + 1, 0), (CODE, 24), (CODE, 27), (0, 0)):
            with self.assertRaises(sfi_run.NotEntered):
                self.sandbox.registers = sfi_run.Registers(pc, tuple(x + (at == number != 0) for at, x in enumerate(kept.x)))
        self.assertEqual(self.sandbox.registers, kept)

    def test_a_reply_that_keeps_a1(self):
        self.sandbox.turn(1000).reply(0)
        self.assertEqual(self.sandbox.turn(1000).a0, 10)

    def test_events(self):
        found = []
        for event in self.sandbox.events(1000):
            found.append(event)
            if isinstance(event, sfi_run.Call):
                event.reply(0, 9) if event.service else event.exit(event.a0)
        self.assertEqual([type(it).__name__ for it in found], ["Call", "Call", "Exited"])
        self.assertEqual(found[2].number, 9)

    def test_no_steps_but_those_given(self):
        """The same steps, whatever the turns."""
        ends = set()
        for most in (1, 2, 3, 7, 1000):
            with sfi_run.World(built(TWICE)) as world:
                sandbox = world[0]
                while not isinstance(sandbox.event, sfi_run.Exited):
                    before = sandbox.steps
                    for event in sandbox.events(most):
                        if isinstance(event, sfi_run.Call):
                            event.reply(0, 9) if event.service else event.exit(event.a0)
                    self.assertLessEqual(sandbox.steps - before, most)
                ends.add((sandbox.steps, sandbox.event))
        self.assertEqual(len(ends), 1)

    def test_a_call_that_is_left(self):
        self.assertEqual([it.service for it in self.sandbox.events(1000)], [4])
        self.assertEqual([it.service for it in self.sandbox.events(1000)], [4])

    def test_a_call_that_is_kept(self):
        first = self.sandbox.turn(1000)
        first.reply(1, 77)
        second = self.sandbox.turn(1000)
        for use in (lambda: first.reply(9), lambda: first.exit(9)):
            with self.assertRaises(sfi_run.NotWaiting):
                use()
        self.assertEqual(self.sandbox.event, second)
        second.exit(3)
        self.sandbox.enter(self.sandbox.data.base - DATA + CODE + 32)
        again = self.sandbox.turn(1000)
        with self.assertRaises(sfi_run.NotWaiting):
            second.reply(9)
        self.assertEqual(self.sandbox.event, again)

    def test_the_budget_of_a_loop_that_runs_the_sandbox(self):
        for own in (0, 50, 99, 200):
            with self.subTest(own=own), sfi_run.World(built(LOOPS)) as world:
                sandbox, used = world[0], 0
                for event in sandbox.events(100):
                    if isinstance(event, sfi_run.Call):
                        event.reply(0)
                        sandbox.turn(own)
                        used = sandbox.steps
                self.assertGreater(used, own)  # the reply is a step, too
                self.assertEqual((event, sandbox.steps), (sfi_run.Ready(), max(used, 100)))

    def test_fewer_steps_than_none(self):
        with self.assertRaisesRegex(ValueError, "steps is -5"):
            self.sandbox.events(-5)
        self.assertEqual(list(self.sandbox.events(0)), [sfi_run.Ready()])

    def test_what_loops_is_stopped_and_entered_again(self):
        with sfi_run.World(built(LOOPS)) as world:
            sandbox = world[0]
            start = sandbox.pc
            sandbox.turn(100).reply(0)
            self.assertEqual(sandbox.turn(100), sfi_run.Ready())
            sandbox.write(DATA, b"x")
            before = (sandbox.steps, sandbox.registers)
            sandbox.stop()
            with self.assertRaises(sfi_run.NotRunning):
                sandbox.stop()
            self.assertEqual((sandbox.turn(100), sandbox.event), (sfi_run.Stopped(), sfi_run.Stopped()))
            self.assertEqual((sandbox.steps, sandbox.registers, sandbox.read(DATA, 1)), (*before, b"x"))
            sandbox.enter(start)
            call = sandbox.turn(100)
            sandbox.stop()
            with self.assertRaises(sfi_run.NotWaiting):
                call.reply(0)

    def test_reset(self):
        with sfi_run.World(built(LOOPS)) as world:
            sandbox = world[0]
            first = (sandbox.registers, sandbox.read(DATA, 4096))
            call = sandbox.turn(100)
            sandbox.write(DATA + 4095, b"x")
            sandbox.reset()
            self.assertEqual((sandbox.registers, sandbox.read(DATA, 4096)), first)
            self.assertEqual((sandbox.event, sandbox.steps), (sfi_run.Ready(), 0))
            sandbox.turn(100)
            with self.assertRaises(sfi_run.NotWaiting):
                call.reply(0)

    def test_reset_of_data_of_some_sizes(self):
        for size in (65536, 262144, 1048576):
            with sfi_run.World(built(f".sandbox {size}\nebreak\n.data\n.byte 7, 8, 9\n")) as world:
                pages = range(DATA, DATA + size, 4096)
                for written in ([], pages[:1], pages[3:7], pages[::2], pages[1::2], pages[::7], pages, pages[-1:]):
                    for at in written:
                        world[0].write(at + 4094, b"xy")
                    world[0].reset()
                    self.assertEqual(world[0].read(DATA, size), bytes([7, 8, 9]) + bytes(size - 3), (size, len(written)))

    def test_data(self):
        self.assertEqual(self.sandbox.read(DATA, 4096), bytes(4096))
        self.sandbox.write(DATA + 4090, b"\1\0\2\0\3\4")
        self.assertEqual(self.sandbox.read(DATA + 4089, 7), b"\0\1\0\2\0\3\4")
        self.assertEqual(self.sandbox.read(DATA, 0), b"")
        self.sandbox.write(DATA, b"")
        for at, count in ((DATA - 1, 1), (DATA - 1, 2), (DATA + 4095, 2), (DATA + 4096, 1), (DATA, 4097), (CODE, 4), (0, 1), (0xFFFFFFFF, 2)):
            with self.subTest(at=at, count=count):
                with self.assertRaises(sfi_run.OutsideData):
                    self.sandbox.read(at, count)
                with self.assertRaises(sfi_run.OutsideData):
                    self.sandbox.write(at, b"\xff" * count)
        self.assertEqual(self.sandbox.read(DATA, 4096), bytes(4090) + b"\1\0\2\0\3\4")
        with self.assertRaises(sfi_run.OutsideData):
            self.sandbox.read(DATA, -1)

    def test_entering(self):
        start = self.sandbox.registers.pc
        with self.assertRaises(sfi_run.NotEntered):
            self.sandbox.enter(start)
        self.sandbox.turn(1000).exit(3)
        for pc in (start + 4, CODE - 16, CODE + 256, DATA):
            with self.subTest(pc=pc), self.assertRaises(sfi_run.NotEntered):
                self.sandbox.enter(pc)
        self.assertEqual(self.sandbox.event, sfi_run.Exited(3))
        before = self.sandbox.steps
        self.sandbox.enter(start, range(1, 9))
        self.assertEqual(self.sandbox.registers.x[10:18], tuple(range(1, 9)))
        self.assertEqual((self.sandbox.event, self.sandbox.steps), (sfi_run.Ready(), before))
        with self.assertRaises(ValueError):
            self.sandbox.enter(start, range(9))

    def test_functions(self):
        with sfi_run.World(built(SUM)) as world:
            sandbox, sum_at = world[0], CODE + 48  # behind two gates and the start, each a bundle
            with self.assertRaises(sfi_run.NotReturned) as told:
                sandbox.call(sum_at, 2, 3, steps=100)
            self.assertEqual((told.exception.cause, sandbox.steps), (sfi_run.Ended.BUSY, 0))
            sandbox.turn(100).exit(0)
            self.assertEqual(sandbox.call(sum_at, 2, 3, steps=100), 5)
            self.assertEqual(sandbox.call(sum_at, 0xFFFFFFFF, 3, steps=100), 2)
            asked_at = sum_at + 16
            self.assertEqual(sandbox.call(asked_at, 6, 7, steps=100, serve=lambda call: call.reply(call.a0 * call.a1)), 42)
            with self.assertRaises(sfi_run.NotReturned) as told:
                sandbox.call(asked_at, 6, 7, steps=100)
            self.assertEqual((told.exception.event.a1, sandbox.event), (7, sfi_run.Stopped()))
            with self.assertRaises(sfi_run.NotReturned) as told:
                sandbox.call(sum_at, 2, 3, steps=1)
            self.assertEqual(told.exception.event, sfi_run.Ready())
            with self.assertRaises(ValueError):
                sandbox.call(sum_at, *range(9), steps=100)

    def test_numbers_of_32_bits(self):
        call = self.sandbox.turn(1000)
        for value in (-1, 1 << 32):
            for use in (lambda: call.reply(value), lambda: call.reply(0, value), lambda: call.exit(value),
                        lambda: self.sandbox.turn(value), lambda: self.sandbox.read(value, 1)):
                with self.assertRaises(ValueError):
                    use()
        self.assertEqual(self.sandbox.event, call)
        call.reply(0, 0xFFFFFFFF)
        self.assertEqual(self.sandbox.turn(1000).a0, 0xFFFFFFFF)


class Beside(unittest.TestCase):
    """Sandboxes that come into a world and leave it. `--at` gives them places beside each other."""

    def modules(self):
        return [Module(built(source, "--at", f"{CODE + place:08x}:{DATA + place:08x}"))
                for source, place in ((TWICE, 0), (SUM, 0x100000), (TWICE, 0x200000), (LOOPS, 0x1000))]

    def test_added_and_removed(self):
        twice, total, other, _ = self.modules()
        world = twice.world()
        first = world[0]
        waiting = first.turn(1000)
        (second,), (third,) = world.add(total), world.add(other)
        self.assertEqual((len(world), second.number, third.number, third.steps), (3, 1, 2, 0))
        self.assertEqual(third.data, sfi_run.Region(DATA + 0x200000, 4096))
        kept = third.turn(1000)
        self.assertEqual(second.turn(100), sfi_run.Call(0, *[0] * 8, 1, CODE + 0x100010, second))
        world.remove(second)
        self.assertEqual((len(world), first.number, third.number), (2, 0, 1))
        kept.reply(0, 8)
        waiting.reply(0, 9)
        self.assertEqual((first.turn(100).a0, third.turn(100).a0), (9, 8))
        for use in (lambda: second.event, lambda: world.remove(second), lambda: world[2]):
            with self.assertRaises(IndexError):
                use()
        (again,) = world.add(total)
        self.assertEqual((again.number, again.steps), (2, 0))
        for sandbox in list(world):
            world.remove(sandbox)
        self.assertEqual(len(world), 0)
        world.close()

    def test_what_is_not_added(self):
        twice, _, _, near = self.modules()
        world = twice.world()
        for module in (twice, near):
            with self.assertRaises(sfi_run.Meets):
                world.add(module)
        self.assertEqual(len(world), 1)
        with self.assertRaises(ValueError):
            world.remove(near.world()[0])
        near.close()
        with self.assertRaises(ValueError):
            world.add(near)
        world.close()
        with self.assertRaises(ValueError):
            world.add(twice)

    def test_answers_that_are_unknown(self):
        world, module = self.modules()[0].world(), self.modules()[2]
        for status, why in ((5, MemoryError), (6, MemoryError), (7, RuntimeError)):
            with mock.patch.dict(world._calls._functions, {"add": lambda *_: status, "remove": lambda *_: status}):
                for use in (lambda: world.add(module), lambda: world.remove(world[0])):
                    with self.assertRaises(why):
                        use()


class Services(unittest.TestCase):
    """What examples can't show of the console: each failure of docs/GATES.md."""

    def served(self, service, a0, a1, given=b""):
        """What a call of a gate is replied, and the console."""
        source = f".sandbox 4096\n.gate it {service}\n li a0, {a0}\n li a1, {a1}\n call it\n ebreak\n.sandbox 4096\n ebreak\n"
        world = sfi_run.World(built(source))
        self.addCleanup(world.close)
        console = Console(world, given)
        console.turn(world[0], 100)
        x = world[0].registers.x
        return x[10], x[11], console

    def test_failures(self):
        for service, a0, a1 in ((1, DATA, 4097), (1, DATA - 1, 1), (1, CODE, 4), (1, DATA, 65537), (2, DATA, 4097), (2, DATA + 4095, 2),
                                (2, DATA, 65537), (4, 2, 9), (4, 0xFFFFFFFF, 9)):
            with self.subTest(service=service, a0=a0, a1=a1):
                found = self.served(service, a0, a1, b"abc")
                self.assertEqual(found[:2], (0xFFFFFFFF, a1))
                self.assertEqual(found[2].output, [b"", b""])

    def test_nothing_is_put_or_got(self):
        for service in (1, 2):
            self.assertEqual(self.served(service, 3, 0, b"abc")[:2], (0, 0))

    def test_a_call_is_served(self):
        world = sfi_run.World(built(f".sandbox 4096\n.gate put 1\n li a0, {DATA}\n li a1, 3\n call put\n ebreak\n"))
        self.addCleanup(world.close)
        console, call = Console(world), world[0].turn(100)
        self.assertTrue(console.serve(call))
        self.assertEqual(console.output, [bytes(3)])
        with self.assertRaises(sfi_run.NotWaiting):
            console.serve(call)
