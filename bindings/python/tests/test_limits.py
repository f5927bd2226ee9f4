"""Tests of runs that a time, another thread or a signal ends, and of what runs leave that are cut short."""
import random
import signal
import threading
import time
import unittest
from unittest import mock

from test_calls import AT, IMAGE
from test_sfi_run import built  # which also finds the package
import sfi_run
from sfi_run import _limits, names
from sfi_run.modules import Module
from sfi_run.told import Ended

MANY = 1 << 62  # steps that no test waits for
SOON = 0.02  # seconds
# Counts in its data, and tells each 3000 counts.
COUNTS = """
.sandbox 4096
.gate tell 5
        la   s0, count
        li   s1, 3000
again:  li   s2, 0
more:   lw   t0, 0(s0)
        addi t0, t0, 7
        sw   t0, 0(s0)
        addi s2, s2, 1
        blt  s2, s1, more
        mv   a0, t0
        call tell
        add  s1, s1, a0
        j    again
.data
count:  .word 0
"""
# Comes to far after some 300,000 steps, and stays there.
FAR = """
.format 2
.sandbox 4096
.export far
        li   s0, 150000
more:   addi s0, s0, -1
        bnez s0, more
far:    j    far
"""


class Telling(sfi_run.Library):
    """The library, which tells that a turn begins."""

    def __init__(self):
        super().__init__()
        self.begins = threading.Event()

    def __getitem__(self, name):
        if name in ("turn", "until"):
            self.begins.set()
        return super().__getitem__(name)


class Clock:
    """One that stands still until it is set."""
    now = 0.0

    def monotonic(self):
        return self.now


class Later:
    """An interrupt that is set once it was asked so often."""

    def __init__(self, count):
        self.left = count

    def is_set(self):
        self.left -= 1
        return self.left < 0


def soon(does):
    timer = threading.Timer(SOON, does)
    timer.start()
    return timer


def alike(one, other):
    return all(read(one) == read(other) for read in (lambda it: it.registers, lambda it: it.steps, lambda it: it.read(it.data.base, it.data.size)))


class Limits(unittest.TestCase):
    def setUp(self):
        self.world = sfi_run.World(IMAGE)
        self.addCleanup(self.world.close)
        self.sandbox = self.world[0]
        self.sandbox.stop()

    def ends(self, cause, **limits):
        before = time.monotonic()
        with self.assertRaises(sfi_run.NotReturned) as told:
            self.sandbox.call(AT["spin"], 7, steps=MANY, **limits)
        self.assertIs(told.exception.cause, cause)
        self.assertEqual(self.sandbox.call(AT["get"], 61, steps=100), 1061)
        return time.monotonic() - before

    def test_a_time(self):
        self.assertGreaterEqual(self.ends(Ended.TIMED_OUT, timeout=SOON), SOON)
        self.ends(Ended.TIMED_OUT, timeout=0)
        self.assertEqual(self.sandbox.call(AT["get"], 61, steps=100, timeout=60), 1061)

    def test_another_thread(self):
        stop = threading.Event()
        timer = soon(stop.set)
        self.ends(Ended.INTERRUPTED, interrupt=stop)
        timer.join()
        self.ends(Ended.INTERRUPTED, interrupt=stop)

    def test_a_signal(self):
        def raises(number, frame):
            raise KeyboardInterrupt
        before, telling = signal.signal(signal.SIGINT, raises), Telling()
        self.addCleanup(signal.signal, signal.SIGINT, before)
        world = sfi_run.World(IMAGE, telling)
        self.addCleanup(world.close)
        sandbox = world[0]
        sandbox.stop()
        for run in (lambda: sandbox.call(AT["spin"], 7, steps=MANY), lambda: sandbox.turn((1 << 32) - 1),
                    lambda: sandbox.until([AT["get"]], (1 << 32) - 1), lambda: list(sandbox.events(MANY))):
            telling.begins.clear()
            sender = threading.Thread(target=lambda: telling.begins.wait() and signal.raise_signal(signal.SIGINT), daemon=True)
            sender.start()
            with self.assertRaises(KeyboardInterrupt):
                run()
            sender.join()
            if isinstance(sandbox.event, sfi_run.Ready):
                sandbox.stop()
            self.assertEqual(sandbox.call(AT["get"], 61, steps=100), 1061)
            sandbox.enter(AT["spin"])

    def test_so_many_steps(self):
        before = self.sandbox.steps
        self.sandbox.enter(AT["spin"])
        self.assertEqual(list(self.sandbox.events(MANY, interrupt=Later(5))), [sfi_run.Ready()])
        self.assertEqual(self.sandbox.steps - before, 5 * _limits.STEPS)

    def test_calls_of_handlers_end_too(self):
        found, clock = [], Clock()

        def serve(call):
            clock.now = SOON
            with self.assertRaises(sfi_run.NotReturned) as told:
                self.sandbox.call(AT["spin"], 7, steps=MANY)
            found.append(told.exception.cause)
            call.reply(call.a0)
        with mock.patch.object(_limits, "time", clock), self.assertRaises(sfi_run.NotReturned) as told:
            self.sandbox.call(AT["parse"], 7, steps=MANY, serve=serve, timeout=SOON)
        self.assertEqual((found, told.exception.cause), ([Ended.TIMED_OUT], Ended.TIMED_OUT))
        inner = lambda call: (self.ends_within(call), call.reply(call.a0))
        self.assertEqual(self.sandbox.call(AT["sum_by"], 3, steps=MANY, serve=inner, timeout=60), 3)

    def ends_within(self, call):
        with self.assertRaises(sfi_run.NotReturned):
            call.sandbox.call(AT["spin"], 7, steps=MANY, timeout=0)

    def test_what_is_no_limit(self):
        for limits, error in (({"timeout": -1}, ValueError), ({"timeout": float("nan")}, ValueError), ({"timeout": "1"}, TypeError),
                              ({"interrupt": True}, TypeError)):
            with self.assertRaises(error):
                self.sandbox.call(AT["get"], 1, steps=100, **limits)
            with self.assertRaises(error):
                self.sandbox.events(100, **limits)

    def test_plugins(self):
        stop = threading.Event()
        with Module(IMAGE) as module:
            for plugin in (names.Plugin(IMAGE, steps=MANY, timeout=60, interrupt=stop), module.instance(steps=MANY, timeout=60, interrupt=stop)):
                stop.clear()
                for call in (plugin.spin, lambda: plugin.call64("spin"), lambda: plugin.call_words("spin")):
                    plugin.timeout = SOON
                    with self.assertRaisesRegex(sfi_run.NotReturned, "is over: its time is over. Of the sandbox: it has stopped"):
                        call()
                    plugin.timeout = 60
                    self.assertEqual(plugin.get(61), 1061)
                stop.set()
                with self.assertRaisesRegex(sfi_run.NotReturned, "it is interrupted"):
                    plugin.get(61)
                with self.assertRaisesRegex(sfi_run.NotReturned, "the start .* its time is over"):
                    names.Plugin(built(".sandbox 4096\n.gate exit 0\non: j on\n"), steps=MANY, timeout=0)
                plugin.close()


class Cuts(unittest.TestCase):
    def finish(self, sandbox, end, **limits):
        """Runs it for steps up to that count, and replies to each call. How it stands."""
        for event in sandbox.events(end - sandbox.steps, **limits):
            if isinstance(event, sfi_run.Call):
                event.reply((event.a0 * 77 + 1) & 0xFFF, event.a1)
        return event

    def test_runs_that_are_cut_go_on_as_one(self):
        pick, image = random.Random(98), built(COUNTS)
        for _ in range(5):
            with sfi_run.World(image) as first, sfi_run.World(image) as second:
                for _ in range(12):
                    end = first[0].steps + pick.randrange(500_000)
                    self.finish(first[0], end)
                    while second[0].steps < end:
                        self.finish(second[0], end, interrupt=Later(pick.randrange(3)))
                        if pick.random() < 0.3:
                            second[0].turn(min(pick.randrange(2000), end - second[0].steps))
                    self.assertTrue(alike(first[0], second[0]))

    def test_long_turns_up_to_a_stop(self):
        image = built(FAR)
        far = names.export(image, "far")

        def steps_to_far(first, piece):
            """How many steps there are up to the stop, in turns of so many after a first one."""
            with sfi_run.World(image) as world:
                world[0].turn(first)
                while world[0].pc != far:
                    self.assertEqual(world[0].until([far], piece), sfi_run.Ready())
                return world[0].steps
        count = steps_to_far(0, 1000)
        self.assertGreater(count, 2 * _limits.STEPS)
        for first in (0, 1, count % _limits.STEPS, count - _limits.STEPS, count - _limits.STEPS - 1, count - 1):
            self.assertEqual(steps_to_far(first, (1 << 32) - 1), count)


if __name__ == "__main__":
    unittest.main()
