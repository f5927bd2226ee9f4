"""Tests of sfi_run.names. The bytes of a table are those of docs/IMAGE.md."""
import struct
import unittest

from test_sfi_run import CODE, SMALLEST, built  # which also finds the package
import sfi_run
from sfi_run import modules, names

INIT_COUNT = 32  # where the first sandbox's number of first data bytes lies
# At its start it exits. sum returns the sum of its arguments, twice the double of the answer to a call of ask.
PLUGIN = """
.sandbox 4096
.gate exit 0
.gate ask 3
        call exit
sum:    add  a0, a0, a1
        ret
twice:  mv   s0, ra
        call ask
        add  a0, a0, a0
        jr   s0
"""
ASK, SUM, TWICE = CODE + 0x10, CODE + 0x30, CODE + 0x40  # as `sfi map` tells


def entry(address, name):
    return struct.pack("<IB", address, len(name)) + name


def table(exports, imports=b"", version=0):
    return exports + imports + struct.pack("<3I", version, len(exports), len(imports)) + b"SFIN"


def with_data(image, data):
    """An image of one sandbox without data, with these first data bytes."""
    return image[:INIT_COUNT] + struct.pack("<I", len(data)) + image[INIT_COUNT + 4:] + data


class Names(unittest.TestCase):
    def test_what_a_table_says(self):
        exports = entry(CODE, b"add") + entry(CODE + 16, b"add") + entry(7, b"x") + entry(0xFFFFFFFF, b"~" * 180)
        image = with_data(SMALLEST, b"before" + table(exports, entry(CODE + 32, b"log"), 9))
        for name, address in (("add", CODE), ("x", 7), ("~" * 180, 0xFFFFFFFF)):  # the first, and any address
            self.assertEqual(names.export(image, name), address)
        self.assertEqual((names.imported(image, "log"), names.api(image)), (CODE + 32, 9))

    def test_what_is_missing(self):
        right = table(entry(CODE, b"add"), entry(CODE, b"log"))
        rows = [(with_data(SMALLEST, right), name, 5) for name in ("ad", "addd", "", "log", "\xe4")]
        rows += [(SMALLEST, "add", 3), (SMALLEST[:-1], "add", 1), (with_data(SMALLEST, right + b"\0"), "add", 3)]
        wrong = [entry(CODE, b""), entry(CODE, b"a b"), entry(CODE, b"a\x7f"), entry(CODE, b"add")[:-1], entry(CODE, b"add") + b"\0"]
        rows += [(with_data(SMALLEST, data), "add", 4) for data in (*map(table, wrong), right[1:], b"SFIN", b"\0" * 11 + b"SFIN")]
        for image, name, why in rows:
            with self.subTest(image=image[292:], name=name), self.assertRaises(names.NoName) as told:
                names.export(image, name)
            self.assertEqual(told.exception.why, why)
        with self.assertRaisesRegex(names.NoName, "add: there is no such sandbox"):
            names.export(with_data(SMALLEST, right), "add", 1)


class Plugins(unittest.TestCase):
    def setUp(self):
        exports = entry(SUM, b"sum") + entry(TWICE, b"twice") + entry(8, b"nowhere")
        self.image = with_data(built(PLUGIN), table(exports, entry(ASK, b"ask")))

    def test_functions(self):
        with names.Plugin(self.image) as plugin:
            self.assertEqual((plugin.sum(2, 3), plugin.call("sum", 4, 5)), (5, 9))
            with self.assertRaisesRegex(AttributeError, "total: the table doesn't have the name"):
                plugin.total(1)
            with self.assertRaises(sfi_run.NotReturned) as told:
                plugin.nowhere()
            self.assertIs(told.exception.cause, sfi_run.Ended.NO_FUNCTION)

    def test_handlers(self):
        with names.Plugin(self.image, ask=lambda call: call.a0 - 4, unasked=lambda call: 1) as plugin:
            self.assertEqual((plugin.twice(9), plugin.twice(3)), (10, 0xFFFFFFFE))
        with names.Plugin(self.image) as plugin:
            with self.assertRaises(sfi_run.NotReturned):
                plugin.twice(9)
            self.assertEqual(plugin.sum(1, 2), 3)

    def test_callbacks(self):
        with names.Plugin(self.image, ask=lambda call: plugin.sum(call.a0, 1)) as plugin:
            self.assertEqual((plugin.twice(9), plugin.sandbox.event), (20, sfi_run.Exited(20)))
        with names.Plugin(self.image, ask=lambda call: plugin.twice(call.a0 - 1) if call.a0 else 1) as plugin:
            self.assertEqual(plugin.twice(3), 16)  # s0 is that of each call again
        calls = []
        with names.Plugin(self.image, ask=calls.append) as plugin:
            plugin.sandbox.enter(TWICE, [9])
            waiting = plugin.sandbox.turn(1000)
            self.assertEqual((plugin.twice(4), len(calls)), (0, 1))
            with self.assertRaises(sfi_run.NotWaiting):
                calls[0].reply(0)
            waiting.reply(7)
            self.assertEqual(plugin.sandbox.turn(1000).a0, 14)

    def test_modules(self):
        with modules.Module(self.image) as module:
            worlds = [module.world() for _ in range(3)]
            first, second = (module.instance(ask=lambda call: call.a0 + 1) for _ in range(2))
        with self.assertRaisesRegex(ValueError, "closed"):
            module.world()
        worlds[0].close()
        data = first.sandbox.data.base
        first.sandbox.write(data, b"mine")
        self.assertEqual((first.sum(2, 3), second.twice(4)), (5, 10))
        with sfi_run.World(self.image) as loaded:
            for world in (worlds[1], loaded):
                self.assertEqual((world[0].read(data, 4), world[0].steps, world[0].registers), (loaded[0].read(data, 4), 0, loaded[0].registers))
        self.assertEqual(first.sandbox.read(data, 4), b"mine")
        self.assertNotEqual(second.sandbox.read(data, 4), b"mine")
        for image, error in ((self.image[1:], sfi_run.NoImage), (5, TypeError)):
            with self.assertRaises(error):
                modules.Module(image)


if __name__ == "__main__":
    unittest.main()
