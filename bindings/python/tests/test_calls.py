"""Tests of calls of functions that don't return, of 64 bits, and of threads that share a plug-in: bindings/calls.s is that of
all languages' tests, which have the same cases."""
import pathlib
import struct
import threading
import unittest

from test_sfi_run import HERE, built  # which also finds the package
import sfi_run
from sfi_run import names
from sfi_run.told import Ended

IMAGE = built(pathlib.Path(HERE.parents[1] / "calls.s").read_text(encoding="utf-8"))
AT = {name: names.export(IMAGE, name) for name in ("get", "noted", "parse", "sum_by", "wide", "wild", "spin")}
STEPS = 10_000


class Unserved(Exception):
    """A host's own error."""


def raises(call):
    raise Unserved


def says_nothing(call):
    pass


def stops(call):
    call.sandbox.stop()


def resets(call):
    call.sandbox.reset()


def enters_another(call):
    call.sandbox.stop()
    call.sandbox.enter(AT["get"], [1])


def calls_another(call):
    call.sandbox.stop()
    call.sandbox.call(AT["get"], 1, steps=STEPS)


def sets_registers(call):
    call.sandbox.registers = call.sandbox.registers


def removes(call):
    call.sandbox._world.remove(call.sandbox)


def closes(call):
    call.sandbox._world.close()


def answers(call):
    call.reply(call.a0)


# What is called, what its handler does, and how that call ends.
CASES = [("parse", raises, Unserved), ("parse", says_nothing, Ended.REFUSED), ("parse", None, Ended.REFUSED), ("parse", stops, Ended.STOPPED),
         ("parse", resets, Ended.GONE), ("parse", enters_another, Ended.GONE), ("parse", calls_another, Ended.GONE),
         ("parse", sets_registers, Ended.GONE), ("parse", removes, Ended.GONE), ("parse", closes, Ended.GONE), ("wild", None, Ended.TRAPPED),
         ("spin", None, Ended.STEPS_USED)]
LOST = (removes, closes)


class Failing(unittest.TestCase):
    def setUp(self):
        self.world = sfi_run.World(IMAGE)
        self.addCleanup(self.world.close)
        self.sandbox = self.world[0]
        self.sandbox.stop()

    def ended(self, function, handler, argument=7):
        """How a call ends: the host's own error, or its cause."""
        try:
            self.sandbox.call(AT[function], argument, steps=STEPS, serve=handler)
        except Unserved:
            return Unserved
        except sfi_run.NotReturned as failed:
            return failed.cause
        return None

    def noted(self):
        return struct.unpack("<I", self.sandbox.read(AT["noted"], 4))[0]

    def is_right(self):
        self.assertEqual(self.sandbox.call(AT["get"], 61, steps=STEPS), 1061)
        self.assertEqual(self.sandbox.call(AT["sum_by"], 5, steps=STEPS, serve=answers), 10)

    def test_a_call_ends(self):
        for function, handler, wanted in CASES:
            with self.subTest(function=function, handler=handler):
                self.setUp()
                self.assertEqual(self.ended(function, handler), wanted)
                if handler in LOST:
                    with self.assertRaises(IndexError):
                        self.is_right()
                    continue
                self.assertNotIsInstance(self.sandbox.event, (sfi_run.Ready, sfi_run.Call))
                self.assertEqual(self.noted(), 0 if handler is resets else 7)
                self.is_right()

    def test_a_call_back_ends(self):
        for function, handler, wanted in CASES:
            with self.subTest(function=function, handler=handler):
                self.setUp()
                found = []

                def serve(call):
                    if call.a0 == 1:
                        before = self.sandbox.registers
                        found.append(self.ended(function, handler))
                        if wanted is not Ended.GONE:
                            self.assertEqual((self.sandbox.registers, self.sandbox.event), (before, call))
                            self.assertTrue(call.is_waiting)
                            self.assertEqual(self.noted(), 7)
                            self.assertEqual(self.sandbox.call(AT["get"], 61, steps=STEPS), 1061)
                    if call.is_waiting:
                        call.reply(call.a0)
                if wanted is Ended.GONE:
                    self.assertEqual(self.ended("sum_by", serve, 3), Ended.GONE)
                else:
                    # the steps of what is called back count, too
                    self.assertEqual(self.sandbox.call(AT["sum_by"], 3, steps=2 * STEPS, serve=serve), 3)
                self.assertEqual(found, [wanted])
                if handler not in LOST:
                    self.is_right()

    def test_a_handlers_error_passes_through_calls_around_it(self):
        def outer(call):
            self.sandbox.call(AT["parse"], call.a0, steps=STEPS, serve=raises)
        self.assertEqual((self.ended("sum_by", outer, 3), self.noted()), (Unserved, 2))
        self.is_right()

    def test_no_frame_is_left(self):
        for handler, wanted in ((raises, Unserved), (says_nothing, Ended.REFUSED)):
            self.assertEqual({self.ended("parse", handler) for _ in range(2000)}, {wanted})
            self.is_right()
            inner = lambda call: ([self.ended("parse", handler) for _ in range(500)], call.reply(call.a0))
            self.assertEqual(self.sandbox.call(AT["sum_by"], 5, steps=1 << 20, serve=inner), 10)
            self.is_right()

    def test_what_cannot_be_called(self):
        waiting = []
        for begin, pc, cause in ((lambda: None, 8, Ended.NO_FUNCTION), (lambda: None, AT["get"] + 2, Ended.NO_FUNCTION),
                                 (lambda: self.sandbox.enter(AT["spin"]), AT["get"], Ended.BUSY), (self.sandbox.stop, 8, Ended.NO_FUNCTION),
                                 (lambda: (self.sandbox.enter(AT["parse"], [3]), waiting.append(self.sandbox.turn(100))), 8, Ended.NO_FUNCTION)):
            begin()
            before = (self.sandbox.registers, self.sandbox.event, self.sandbox.steps)
            with self.assertRaises(sfi_run.NotReturned) as told:
                self.sandbox.call(pc, 1, steps=STEPS)
            self.assertIs(told.exception.cause, cause)
            self.assertEqual((self.sandbox.registers, self.sandbox.event, self.sandbox.steps), before)
        self.assertTrue(waiting[0].is_waiting)

    def test_what_is_said(self):
        at, ask = f"{AT['wild']:08x}", names.imported(IMAGE, "ask")
        for function, handler, said in (
                ("wild", None, rf"call of {at} in sandbox 0 is over: it trapped, Store at 017ffffc\. .* has stopped, and can be called"),
                ("spin", None, "its steps are used .*`enter`.*`events`.* has stopped, and can be called"),
                ("parse", None, rf"no handler replied \(service 3 at {ask:08x}\)"), ("parse", stops, "a handler stopped the sandbox"),
                ("parse", resets, "a handler reset, .* has stopped, and can be called"), ("parse", removes, "it is no longer there")):
            self.setUp()
            with self.assertRaisesRegex(sfi_run.NotReturned, said):
                self.sandbox.call(AT[function], 7, steps=STEPS, serve=handler)
        self.setUp()
        back = lambda call: self.sandbox.call(AT["spin"], 7, steps=50)
        with self.assertRaisesRegex(sfi_run.NotReturned, "it stands again at the call at which it was called"):
            self.sandbox.call(AT["parse"], 7, steps=STEPS, serve=back)
        self.sandbox.enter(AT["spin"])
        with self.assertRaisesRegex(sfi_run.NotReturned, "didn't begin: .* in the midst of a run.*`stop` ends"):
            self.sandbox.call(AT["get"], 7, steps=STEPS)


class Values(unittest.TestCase):
    def plugin(self, **handlers):
        plugin = names.Plugin(IMAGE, **handlers)
        self.addCleanup(plugin.close)
        return plugin

    def test_arguments(self):
        plugin = self.plugin()
        for low, high, wanted in ((1, 2, 0x2_00000001), (-1, 0, 0xFFFFFFFF), (0, -1 << 31, 1 << 63), ((1 << 32) - 1, (1 << 32) - 1, (1 << 64) - 1)):
            self.assertEqual((plugin.call64("wide", low, high), plugin.wide(low, high)), (wanted, wanted & 0xFFFFFFFF))
        before = plugin.sandbox.steps
        for wrong, error in ((1 << 32, ValueError), ((-1 << 31) - 1, ValueError), (1.0, TypeError), ("1", TypeError), (None, TypeError)):
            with self.assertRaises(error):
                plugin.wide(1, wrong)
        for words in ({"steps": -1}, {"steps": 1.5}, {"steps": 10, "serve": 5}):
            with self.assertRaises((ValueError, TypeError)):
                plugin.sandbox.call(AT["wide"], 1, **words)
        with self.assertRaises(TypeError):
            plugin.sandbox.call("wide", steps=10)
        self.assertEqual((plugin.sandbox.steps, plugin.get(3)), (before, 1003))
        with self.assertRaises(TypeError):
            names.Plugin(IMAGE, ask=5)

    def test_answers(self):
        for handler, wanted in ((lambda call: (call.a0, 9), 9 << 32 | 6), (lambda call: call.reply(call.a0, 8), 8 << 32 | 6),
                                (lambda call: (-2, -1), (1 << 64) - 2), (lambda call: (call.reply(1, 2), 5)[1], 2 << 32 | 1),
                                (lambda call: None, 0), (lambda call: -1, 0xFFFFFFFF), (lambda call: True, 1)):
            self.assertEqual(self.plugin(ask=handler).call64("parse", 6), wanted)
        for wrong in ("1", 1.0, (1,), (1, 2, 3), (1, "2"), [1, 2]):
            plugin = self.plugin(ask=lambda call: wrong)
            with self.assertRaisesRegex(TypeError, "a handler answers"):
                plugin.parse(6)
            self.assertEqual(plugin.get(61), 1061)

    def test_named_functions_that_fail(self):
        plugin = self.plugin(ask=raises)
        plugin.steps = 1000
        for _ in range(1100):
            with self.assertRaises(Unserved):
                plugin.parse(1)
        for function, cause in (("spin", Ended.STEPS_USED), ("wild", Ended.TRAPPED)):
            with self.assertRaises(sfi_run.NotReturned) as told:
                plugin.call(function, 5)
            self.assertEqual((told.exception.cause, plugin.get(61)), (cause, 1061))

    def test_a_start_that_fails(self):
        with self.assertRaisesRegex(sfi_run.NotReturned, "the start in sandbox 0 is over: its steps are used .* it has stopped$"):
            names.Plugin(built(".sandbox 4096\n.gate exit 0\non: j on\n"), steps=100)


class Threads(unittest.TestCase):
    def test_four_threads_and_a_plugin(self):
        plugin, wrong = names.Plugin(IMAGE, ask=lambda call: plugin.get(call.a0) - 1000), []

        def work(number):
            for count in range(3000):
                try:
                    if plugin.call64("wide", number, count) != count << 32 | number:
                        wrong.append((number, count))
                    if count % 10 == 0 and plugin.sum_by(number + 4) != (number + 4) * (number + 3) // 2:
                        wrong.append(("sum", number, count))
                except Exception as error:
                    wrong.append(error)
        threads = [threading.Thread(target=work, args=(number,)) for number in range(4)]
        for thread in threads:
            thread.start()
        for thread in threads:
            thread.join()
        plugin.close()
        self.assertEqual(wrong[:5], [])


if __name__ == "__main__":
    unittest.main()
