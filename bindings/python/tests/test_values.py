"""Tests of calls by signature: bindings/values.s is that of all languages' tests. Its table gets the claims here, entry by entry,
as docs/IMAGE.md has them, so that they may be wrong, too."""
import math
import pathlib
import struct
import threading
import unittest
from unittest import mock

from test_calls import CASES, IMAGE as CALLS, LOST, STEPS, Unserved, raises, says_nothing
from test_names import entry, with_data
from test_sfi_run import CODE, DATA, HERE, SMALLEST, built  # which also finds the package
import sfi_run
from sfi_run import modules, names
from sfi_run.told import Ended

SOURCE = pathlib.Path(HERE.parents[1] / "values.s").read_text(encoding="utf-8")
IMAGE = built(SOURCE)
SIZE, TOP = 4096, DATA + 4096 - 16  # of the data; the stack pointer of a function that a host enters
INIT_COUNT = 32  # where the sandbox's number of first data bytes lies


def claiming(*exports, imports=(), stack=None, above=0, image=IMAGE):
    """The image with these claims among its exports and imports, the numbers of which are 0, and those of its stack and what is above."""
    count, = struct.unpack_from("<I", image, INIT_COUNT)
    version, first, second = struct.unpack("<3I", image[-16:-4])
    data, lists = image[-count : -16 - first - second], (image[-16 - first - second : -16 - second], image[-16 - second : -16])
    more = [b"".join(it if isinstance(it, bytes) else entry(0, it.encode()) for it in claims) for claims in (exports, imports)]
    if stack is not None:
        more[1] += entry(stack, b".stack")
    if above:
        more[1] += entry(above, b".room")
    found = [a + b for a, b in zip(lists, more)]
    table = b"".join(found) + struct.pack("<3I", version, *map(len, found)) + b"SFIN"
    return with_data(image[:-count], data + table)


class Calls(unittest.TestCase):
    def plugin(self, *exports, imports=(), stack=None, above=0, image=IMAGE, **more):
        plugin = names.Plugin(claiming(*exports, imports=imports, stack=stack, above=above, image=image), **more)
        self.addCleanup(plugin.close)
        return plugin

    def refuses(self, plugin, error, call):
        """It raises the error before anything runs: the sandbox stands as it did."""
        sandbox = plugin.sandbox
        before = (sandbox.steps, sandbox.registers, sandbox.event, sandbox.read(DATA, SIZE))
        with self.assertRaises(error) as told:
            call()
        self.assertEqual((sandbox.steps, sandbox.registers, sandbox.event, sandbox.read(DATA, SIZE)), before)
        return told.exception


class Results(Calls):
    def test_numbers(self):
        for letter, value, wanted in (("i", -1, -1), ("i", (1 << 32) - 1, -1), ("u", -1, (1 << 32) - 1), ("p", DATA, DATA),
                                      ("l", -1 << 63, -1 << 63), ("m", (1 << 64) - 1, (1 << 64) - 1), ("f", 0.1, 0.10000000149011612),
                                      ("f", -0.0, -0.0), ("d", 0.1, 0.1), ("d", -math.inf, -math.inf), ("d", 7, 7.0)):
            plugin = self.plugin(f".same({letter}){letter}")
            for found in (plugin.same(value), plugin.call("same", value)):
                self.assertEqual((found, type(found), math.copysign(1, found)), (wanted, type(wanted), math.copysign(1, wanted)))
        self.assertTrue(math.isnan(self.plugin(".same(d)d").same(math.nan)))
        self.assertEqual(self.plugin(".same(d)l").same(-2.0), -1 << 62)  # 0xC000000000000000
        self.assertIsNone(self.plugin(".same(i)v").same(5))

    def test_places(self):
        self.assertEqual(self.plugin(".last(iiiiiiii)i").last(1, 2, 3, 4, 5, 6, 7, -8), -8)
        plugin = self.plugin(".later(idlu)l", ".last(lidlu)i")  # pairs of registers are of any two, and the low word comes first
        self.assertEqual(plugin.later(1, 2.0, -3, 4), -3)
        self.assertEqual(plugin.last(1 << 40, 2, 2.5, -3, 4), 4)

    def test_texts(self):
        plugin = self.plugin(".length(s)u", ".tail(s)s", ".same(p)s")
        self.assertEqual((plugin.length(""), plugin.length("aä€"), plugin.tail("hällo"), plugin.tail("é")), (0, 6, "ällo", "\ufffd"))
        at = plugin.address("greeting")
        self.assertEqual((plugin.same(at), plugin.same(at + 9), plugin.same(at + 10), plugin.same(0)), ("hello ä!", "", "\ufffdh", None))
        plugin.sandbox.write(DATA + 1000, b"x" * 3000 + b"\0")
        self.assertEqual(plugin.same(DATA + 1000), "x" * 3000)

    def test_texts_that_lie_elsewhere(self):
        plugin = self.plugin(".same(p)s", ".add(ii)i")
        plugin.sandbox.write(DATA + SIZE - 10, b"x" * 10)
        for at in (1, DATA - 1, DATA + SIZE, DATA + SIZE - 1, DATA + SIZE - 10, CODE, (1 << 32) - 1):
            with self.assertRaisesRegex(sfi_run.OutsideData, f"a text at {at:08x}"):
                plugin.same(at)
            self.assertEqual(plugin.add(2, 3), 5)

    def test_bytes_and_buffers(self):
        plugin = self.plugin(".total(b)u", ".raise(w)v")
        self.assertEqual((plugin.total(b"\1\2\xff"), plugin.total(b""), plugin.total(memoryview(b"abc")[1:])), (258, 0, 197))
        whole, words = bytearray(b"abc\xff"), memoryview(bytearray(8)).cast("I")
        for buffer in (whole, words, bytearray(), memoryview(whole)[1:3]):
            self.assertIsNone(plugin.call("raise", buffer))
        self.assertEqual((whole, words.tolist()), (b"bde\0", [0x01010101] * 2))


class Stack(Calls):
    def test_where_they_lie(self):
        plugin = self.plugin(".same(s)p", ".stack(sbw)p", ".later(sbw)l", ".add(ss)u")
        self.assertEqual((plugin.same("x" * 15), plugin.same("x" * 16)), (TOP - 16, TOP - 32))
        self.assertEqual(plugin.add("a", "b"), (2 * TOP - 48) & 0xFFFFFFFF)
        self.assertEqual(plugin.stack("x" * 16, b"x", bytearray(16)), TOP - 64)
        self.assertEqual(plugin.later("x", b"", bytearray(17)), 17 << 32 | TOP - 48)
        self.assertEqual(plugin.sandbox.read(TOP - 16, 2), b"x\0")

    def test_how_much_fits(self):
        for stack, room in ((None, 1024), (2048, 1024), (640, 320), (0, 0), (31, 15)):
            plugin = self.plugin(".length(s)u", ".total(b)u", ".raise(ww)v", stack=stack)
            self.assertEqual(plugin.total(b"x" * (room // 16 * 16)), 120 * (room // 16 * 16))
            for size, call in ((room + 16 - room % 16, lambda: plugin.total(b"x" * (room + 1))), (16 * (room // 16 + 1), lambda: plugin.length("x" * (room // 16 * 16)))):
                wrong = self.refuses(plugin, sfi_run.TooLong, call)
                self.assertEqual((wrong.size, wrong.room), (size, room))
                self.assertIsInstance(wrong, ValueError)
        self.assertEqual(self.refuses(plugin, sfi_run.TooLong, lambda: plugin.call("raise", bytearray(1), bytearray(17))).size, 48)
        self.assertEqual(str(wrong), "length: texts and bytes take 16 bytes of the sandbox's stack, and may take 15")

    def test_what_a_call_that_waits_leaves(self):
        """Each call may take half of what those that wait for it have left of the stack, so that none reaches what lies below it."""
        for above in (0, 64):
            bottom, found = DATA + SIZE - 2048 - above, []

            def ask():
                with self.assertRaises(sfi_run.TooLong) as told:
                    plugin.keep("y" * 1008)
                room = told.exception.room
                found.append((plugin.sandbox.registers.x[2] - bottom, room))
                return len(plugin.keep("y" * (room - room % 16 - 1))) if room >= 16 else 0
            plugin = self.plugin(".keep(s)s", imports=(".ask()i",), stack=2048, above=above, ask=ask)
            plugin.sandbox.write(DATA + 512, b"z" * (bottom - DATA - 512))
            self.assertEqual(plugin.keep("x" * 1000), "x" * 1000)
            # 16 bytes of each frame, the least multiple of 16 that has the text, and 16 bytes above the first
            self.assertEqual(found[:3], [(1008, 512), (480, 248), (224, 120)])
            self.assertEqual(plugin.sandbox.read(DATA + 512, bottom - DATA - 512), b"z" * (bottom - DATA - 512))

    def test_a_stack_that_is_not_there(self):
        plugin = self.plugin(".total(b)u", ".add(ii)i", stack=(1 << 32) - 1)
        self.assertEqual(plugin.total(b"x" * (SIZE - 16)), 120 * (SIZE - 16))
        for size in (SIZE - 15, SIZE, 1 << 20):
            with self.assertRaises(sfi_run.TooLong) as told:
                plugin.total(b"x" * size)
            self.assertEqual(told.exception.room, SIZE - 16)
            self.assertEqual((plugin.sandbox.event, plugin.add(2, 3)), (sfi_run.Stopped(), 5))

    def test_formats(self):
        for format in ("2", "words"):
            plugin = self.plugin(".length(s)u", ".stack(s)p", image=built(SOURCE.replace(".format 2", f".format {format}")))
            self.assertEqual((plugin.length("abcde"), plugin.stack("x") % 16, plugin.length("")), (5, 0, 0))

    def test_a_stack_pointer_that_lies(self):
        """The first format has no rule for x2."""
        source = ".sandbox 256\n.gate exit 0\n.gate ask 3\n call exit\nf: li sp, {at}\n call ask\ng: ret\n"
        for at, room in ((0, 0), (DATA + 8, 8), (DATA + 257, 0), (CODE, 0), (0xFFFFFFFF, 0)):
            image = built(source.format(at=at))
            table = entry(CODE + 0x30, b"f") + entry(CODE + 0x50, b"g") + entry(0, b".g(s)i")
            data = table + entry(CODE + 0x10, b"ask") + struct.pack("<3I", 0, len(table), 8) + b"SFIN"
            found = []

            def ask(call):
                before = call.sandbox.registers
                with self.assertRaises(sfi_run.TooLong) as told:
                    plugin.g("")
                found.append((told.exception.room, call.is_waiting, call.sandbox.registers == before))
                call.sandbox.stop()
            plugin = names.Plugin(with_data(image, data), ask=ask)
            with self.assertRaises(sfi_run.NotReturned):
                plugin.f()
            self.assertEqual(found, [(room, True, True)])


class Arguments(Calls):
    def test_wrong_ones(self):
        plugin = self.plugin(".add(ii)i", ".length(s)u", ".total(b)u", ".raise(w)v", ".same(l)l", ".tail(d)d")
        for name, given in (("add", (1,)), ("add", ()), ("add", (1, 2, 3)), ("add", (1, 1 << 32)), ("add", (1, 2.0)), ("add", ("1", 2)),
                            ("length", (b"ab",)), ("length", (5,)), ("length", ("a\0b",)), ("length", ("\ud800",)), ("length", (None,)),
                            ("total", ("ab",)), ("total", (5,)), ("total", (b"ab", 2)), ("raise", (b"ab",)), ("same", (1 << 63,)),
                            ("tail", ("1",)), ("tail", (10 ** 400,))):
            wrong = self.refuses(plugin, sfi_run.WrongArguments, lambda: plugin.call(name, *given))
            self.assertEqual((wrong.name, wrong.given), (name, given))
            self.assertTrue(str(wrong).startswith(f"{name}{plugin.signatures[name]}: "), wrong)
        self.assertEqual((plugin.add(2, -3), plugin.length("ab")), (-1, 2))

    def test_words_without_a_signature(self):
        plugin = self.plugin(".add(ii)i")
        self.assertEqual((plugin.add(-2, 1), plugin.call_words("add", -2, 1), plugin.call64("same", 1, 2), plugin.same(-1)),
                         (-1, 0xFFFFFFFF, 0x2_00000001, 0xFFFFFFFF))
        self.assertEqual((plugin.call_words("add", 1), plugin.sandbox.call(plugin.address("add"), 1, 2, 3, steps=STEPS)), (1, 3))
        with self.assertRaises(names.NoName):
            plugin.call_words("sub", 1)
        with self.assertRaises(ValueError):
            plugin.same(1 << 32)

    def test_a_buffer_that_changes_its_length(self):
        buffer = bytearray(b"ab")
        plugin = self.plugin(".forward(w)v", ask=lambda call: buffer.append(0))
        with self.assertRaisesRegex(ValueError, "forward: a buffer of 2 bytes has 3 now"):
            plugin.forward(buffer)
        self.assertEqual((buffer, plugin.add(1, 2)), (b"ab\0", 3))


class Claims(Calls):
    def test_what_holds(self):
        plugin = self.plugin(".add(ii)i", ".nothere(i)i", ".same(x)i", ".last(iiiiiiiii)i", ".later(b)b", ".add(dd)d", entry(8, b".tail(s)s"),
                             ".greeting()u", ".ask(i)i", "..room(i)i", imports=(".ask(u)u", ".add(s)v", ".ask(d)d"))
        self.assertEqual(plugin.signatures, {"add": "(ii)i", "greeting": "()u", "ask": "(u)u"})
        self.assertEqual((plugin.add(-3, 1), plugin.same(-3), plugin.tail(1)), (-2, 0xFFFFFFFD, 2))
        with self.assertRaises(sfi_run.NotReturned) as told:
            plugin.greeting()
        self.assertIs(told.exception.cause, Ended.NO_FUNCTION)

    def test_images_without_claims(self):
        self.assertEqual((names.Plugin(IMAGE).signatures, names.Plugin(CALLS).signatures), ({}, {}))
        for image in (built(".sandbox 256\n.gate exit 0\n call exit\n"), with_data(SMALLEST, b"SFIN")):
            self.assertEqual(names.claims(image), names.Claims())

    def test_too_many_entries(self):
        """Each entry that is read costs a look at the whole table."""
        image = built(SOURCE.replace(".sandbox 4096", ".sandbox 16384"))
        for more, found in ((512 - 12 - 1, {"add": "(ii)i"}), (512 - 12, {})):  # the source has 12 exports
            plugin = self.plugin(*[f".f{number}()v" for number in range(more)], ".add(ii)i", image=image)
            self.assertEqual(plugin.signatures, found)
            self.assertEqual(plugin.call("add", 1, 2), 3)
        self.assertEqual(self.plugin(*[f".f{number}()v" for number in range(501)], image=image, signatures={"add": "(ii)i"}).add(-2, 1), -1)

    def test_what_a_host_states(self):
        stated = {"add": "(ii)i", "ask": "(s)v", "unknown": "(i)i"}
        for plugin in (self.plugin(signatures=stated), self.plugin(".add(ii)i", imports=(".ask(s)v",), signatures=stated)):
            self.assertEqual((plugin.signatures, plugin.add(-2, 1)), (stated, -1))
            self.refuses(plugin, sfi_run.WrongArguments, lambda: plugin.add("a", "b"))
        for claims, name, claimed in (((".add(iu)i",), "add", "(iu)i"), ((".add(ii)u",), "add", "(ii)u"), ((".add(i)i", ".add(ii)i"), "add", "(i)i")):
            with self.assertRaises(sfi_run.WrongSignature) as told:
                self.plugin(*claims, signatures=stated)
            wrong = told.exception
            self.assertEqual((wrong.name, wrong.stated, wrong.claimed), (name, "(ii)i", claimed))
            self.assertEqual(str(wrong), f"add: the host states (ii)i, and the image claims {claimed}")
        with self.assertRaisesRegex(sfi_run.WrongSignature, r"ask: the host states \(s\)v, and the image claims \(\)v"):
            self.plugin(imports=(".ask()v",), signatures=stated)
        for wrong in ("ii", "(ii)", "(iiiiiiiii)i", "(z)i", 5, b"(ii)i", None):
            with self.assertRaisesRegex(ValueError, "add: .* is no signature"):
                self.plugin(signatures={"add": wrong})

    def test_modules(self):
        image = claiming(".add(ii)i", imports=(".ask(s)u",))
        with modules.Module(image) as module:
            first, second = module.instance(ask=len), module.instance(signatures={"forward": "(s)u", "ask": "(s)u"}, ask=len)
            with self.assertRaises(sfi_run.WrongSignature):
                module.instance(signatures={"add": "()i"})
        self.assertEqual((first.add(-1, 0), second.forward("äb"), first.signatures), (-1, 2, {"add": "(ii)i", "ask": "(s)u"}))
        self.assertEqual((second.signatures, second.add(-1, 0)), ({"forward": "(s)u", "ask": "(s)u"}, 0xFFFFFFFF))

    def test_claims_beside_what_is_stated(self):
        """Where a host states any, or that there are none, it takes no claim: what it doesn't name goes by words."""
        for stated in ({}, {"length": "(s)u"}, {"unknown": "()v"}):
            found = []
            plugin = self.plugin(".add(ii)i", imports=(".ask(s)v",), stack=2048, signatures=stated, ask=lambda *given: found.extend(given))
            self.assertEqual((plugin.signatures, plugin.add(-2, 1), plugin.forward(5)), (stated, 0xFFFFFFFF, 0))
            self.assertEqual([(type(it), it.a0) for it in found], [(sfi_run.Call, 5)])
        plugin = self.plugin(stack=2048, signatures={"total": "(b)u"})  # the stack's claim stays
        self.assertEqual(self.refuses(plugin, sfi_run.TooLong, lambda: plugin.total(bytes(1025))).room, 1024)
        self.assertEqual(self.plugin(stack=4000, signatures={"total": "(b)u"}).total(bytes(1025)), 0)
        plugin = self.plugin(".add(ii)i", signatures=None)
        self.assertEqual((plugin.signatures, plugin.add(-2, 1)), ({"add": "(ii)i"}, -1))


class Handlers(Calls):
    def test_values(self):
        for letter, words, wanted in (("i", (0xFFFFFFFF,), -1), ("u", (0xFFFFFFFF,), 0xFFFFFFFF), ("p", (4,), 4), ("l", (1, 0x80000000), (-1 << 63) + 1),
                                      ("m", (1, 0x80000000), (1 << 63) + 1), ("f", (0x3F800000,), 1.0), ("d", (0, 0xC0000000), -2.0)):
            found = []
            plugin = self.plugin(imports=(f".ask(i{letter}){letter}",), ask=lambda *given: (found.append(given), given[1])[1])
            self.assertEqual((plugin.call64("forward", -5, *words) & (1 << 32 * len(words)) - 1, found),
                             (sum(word << 32 * at for at, word in enumerate(words)), [(-5, wanted)]))
        found = []
        plugin = self.plugin(imports=(".ask(luiiiii)v",), ask=lambda *given: found.append(given))
        self.assertEqual((plugin.forward(1, 2, 3, 4, 5, 6, 7, 8), found), (0, [(0x2_00000001, 3, 4, 5, 6, 7, 8)]))

    def test_texts_and_bytes(self):
        for letter, given, wanted in (("s", ("aä",), "aä"), ("b", (b"a\0b",), b"a\0b"), ("b", (b"",), b""), ("s", ("x" * 900,), "x" * 900)):
            found = []
            plugin = self.plugin(f".forward({letter})v", imports=(f".ask({letter})v",), ask=found.append)
            plugin.forward(*given)
            self.assertEqual((found, type(found[0])), ([wanted], type(wanted)))

    def test_buffers(self):
        def fill(buffer):
            self.assertIs(type(buffer), bytearray)
            buffer[:] = bytes(buffer).upper()
            return len(buffer)
        plugin = self.plugin(".forward(w)i", imports=(".ask(w)i",), ask=fill)
        buffer = bytearray(b"abc")
        self.assertEqual((plugin.forward(buffer), buffer, plugin.forward(bytearray())), (3, b"ABC", 0))
        plugin = self.plugin(".forward(w)i", imports=(".ask(w)v",), ask=lambda buffer: buffer.append(0))
        with self.assertRaisesRegex(ValueError, "of 3 bytes has 4 now"):
            plugin.forward(buffer)
        self.assertEqual((buffer, plugin.add(1, 2)), (b"ABC", 3))

    def test_answers(self):
        for letter, answer, wanted in (("i", -1, 0xFFFFFFFF), ("u", (1 << 32) - 1, 0xFFFFFFFF), ("i", True, 1), ("p", DATA, DATA), ("s", DATA, DATA),
                                       ("s", None, 0), ("f", 1, 0x3F800000), ("d", -2.0, 0xC0000000_00000000), ("l", -2, (1 << 64) - 2), ("m", 1 << 63, 1 << 63)):
            plugin = self.plugin(imports=(f".ask(){letter}",), ask=lambda: answer)
            mask = (1 << (64 if letter in "dlm" else 32)) - 1
            self.assertEqual(plugin.call64("forward", 7) & mask, wanted)
        for letter, answer in (("i", 1 << 32), ("i", None), ("i", "1"), ("i", (1, 2)), ("u", 1.0), ("p", -1), ("s", "text"), ("f", "1"), ("m", -1)):
            plugin = self.plugin(imports=(f".ask(){letter}",), ask=lambda: answer)
            with self.assertRaisesRegex(TypeError, rf"ask\(\){letter}: the handler has to answer"):
                plugin.forward(7)
            self.assertEqual(plugin.add(1, 2), 3)

    @staticmethod
    def reads():
        return mock.patch.object(sfi_run.Sandbox, "read", autospec=True, side_effect=sfi_run.Sandbox.read)

    def test_lies(self):
        """A call with an address or a length outside the data is refused, before its handler runs."""
        for letter, words in (("s", (0,)), ("s", (DATA - 1,)), ("s", (DATA + SIZE,)), ("s", (CODE,)), ("s", (0xFFFFFFFF,)), ("s", (DATA + SIZE - 4,)),
                              ("b", (DATA, SIZE + 1)), ("b", (DATA - 1, 1)), ("b", (DATA + SIZE, 1)), ("b", (DATA + 1, SIZE)), ("b", (0, 1)),
                              ("b", (DATA, 0xFFFFFFFF)), ("b", (0xFFFFFFFF, 0xFFFFFFFF)), ("b", (DATA + 16, -16)), ("w", (DATA + SIZE - 1, 2)),
                              ("w", (CODE, 4)), ("w", (DATA, 1 << 31))):
            found = []
            plugin = self.plugin(imports=(f".ask(i{letter})v",), ask=lambda *given: found.append(given))
            plugin.sandbox.write(DATA + SIZE - 4, b"xxxx")
            with self.subTest(letter=letter, words=words), self.assertRaises(sfi_run.NotReturned) as told, self.reads() as read:
                plugin.forward(1, *words)
            for _, at, count in (it.args for it in read.call_args_list):  # of which memory is taken
                self.assertTrue(DATA <= at <= at + count <= DATA + SIZE)
            self.assertEqual((told.exception.cause, told.exception.event.service, found), (Ended.REFUSED, 3, []))
            self.assertRegex(str(told.exception), rf"no handler replied \(service 3 at {CODE + 16:08x}, ask\(i{letter}\)v: argument 2, .*, isn't in its data\)")
            self.assertEqual(plugin.add(1, 2), 3)
        whole = []
        plugin = self.plugin(imports=(".ask(bbb)v",), ask=lambda *given: whole.extend(map(len, given)))
        plugin.forward(DATA, SIZE, 0, 0, DATA + SIZE - 1, 1)
        self.assertEqual(whole, [SIZE, 0, 1])

    def test_by_call(self):
        plugin = self.plugin(imports=(".ask(s)i",), ask=names.by_call(lambda call: (call.a0 + call.a7, 9)))
        self.assertEqual(plugin.call64("forward", 1, 0, 0, 0, 0, 0, 0, 2), 9 << 32 | 3)
        with self.assertRaisesRegex(TypeError, "the handler ask is no function: 5"):
            self.plugin(ask=names.by_call(5))

    def test_handlers_that_end_the_call(self):
        for handler, cause in ((lambda _: plugin.sandbox.stop(), Ended.STOPPED), (lambda _: plugin.sandbox.reset(), Ended.GONE),
                               (lambda _: plugin.close(), Ended.GONE)):
            plugin = self.plugin(".forward(w)v", imports=(".ask(w)i",), ask=handler)
            with self.assertRaises(sfi_run.NotReturned) as told:
                plugin.forward(bytearray(b"abc"))
            self.assertIs(told.exception.cause, cause)

    def test_calls_back(self):
        """What the outer call has on the stack stays, however the inner one ends."""
        def ask(text):
            before, waiting = plugin.sandbox.registers, plugin.sandbox.event
            found.append(plugin.length("y" * 500))
            self.assertEqual(plugin.tail("abc"), "bc")
            self.assertLess(plugin.stack(text), before.x[2])
            self.refuses(plugin, sfi_run.TooLong, lambda: plugin.length("y" * 1100))
            self.refuses(plugin, sfi_run.WrongArguments, lambda: plugin.length(5))
            with self.assertRaises(sfi_run.NotReturned):
                plugin.sandbox.call(plugin.address("length"), DATA, steps=3)
            self.assertEqual((plugin.sandbox.registers, plugin.sandbox.event), (before, waiting))
            found.append(text)
        for format in ("2", "words"):
            found = []
            plugin = self.plugin(".keep(s)s", ".length(s)u", ".tail(s)s", ".stack(s)p", imports=(".ask(s)v",), ask=ask,
                                 image=built(SOURCE.replace(".format 2", f".format {format}")))
            self.assertEqual((plugin.keep("outer " * 100), found), ("outer " * 100, [500, "outer " * 100]))


class Allowances(Calls):
    """The handlers of a call get at most 16 bytes of texts and bytes for each step that it may take."""

    def asks(self, letters, *words, steps=64, times=1, size=0):
        """What a handler got of so many calls within one, and why it is over if it is."""
        source = SOURCE.replace("forward: addi sp, sp, -16", f"forward: addi sp, sp, -16\n    sw s0, 8(sp)\n    li s0, {times}") \
            .replace("        call ask\n        lw   ra", "again:  call ask\n    addi s0, s0, -1\n    bnez s0, again\n    lw s0, 8(sp)\n        lw   ra", 1)
        found = []
        plugin = self.plugin(imports=(f".ask({letters})i",), image=built(source), ask=lambda *given: (found.extend(given), DATA)[1])
        plugin.sandbox.write(DATA, b"x" * size + b"\0")
        plugin.steps = steps
        for _ in range(2):  # of another call there is as much
            found.clear()
            try:
                plugin.forward(*words)
                why = None
            except sfi_run.NotReturned as failed:
                why = failed
        return list(map(len, found)), why

    def refused(self, why, letters, number, steps):
        self.assertIs(why.cause, Ended.REFUSED)
        self.assertIn(f"ask({letters})i: argument {number} is too long, as a run of {steps} steps hands {16 * steps} bytes of texts and bytes to its "
                      "handlers at most)", str(why))

    def test_bytes(self):
        for letter in "bw":
            self.assertEqual(self.asks(letter, DATA, 1024), ([1024], None))
            self.assertEqual(self.asks(letter * 2, DATA, 512, DATA, 512), ([512, 512], None))
            for words, number in (((DATA, 1025), 1), ((DATA, 512, DATA, 513), 2)):
                found, why = self.asks(letter * number, *words)
                self.assertEqual(found, [])
                self.refused(why, letter * number, number, 64)

    def test_texts(self):
        for size in (0, 1, 255, 256, 257, 1023, 1024):
            self.assertEqual(self.asks("s", DATA, size=size), ([size], None))
        for size in (1025, 2000, 3000):
            found, why = self.asks("s", DATA, size=size)
            self.assertEqual(found, [])
            self.refused(why, "s", 1, 64)

    def test_all_calls_of_a_run(self):
        self.assertEqual(self.asks("b", DATA, 320, steps=200, times=10), ([320] * 10, None))
        for letters, words, size, times in (("b", (DATA, 321), 0, 9), ("sb", (DATA, DATA, 200), 200, 16)):
            found, why = self.asks(letters, *words, steps=200, times=10, size=size)
            self.assertEqual(found, [max(size, words[-1])] * times)
            self.refused(why, letters, 1, 200)

    def test_little_is_read(self):
        """A long text isn't read to its end where the handlers don't get it."""
        with Handlers.reads() as read:
            self.asks("s", DATA, size=3500, steps=40)
        self.assertLess(sum(it.args[2] for it in read.call_args_list), 2 * 1000)  # of two calls

    def test_the_start(self):
        for count, steps, number in ((320, 40, 1), (321, 40, 0), (0, 40, 2)):
            found, source = [], SOURCE.replace("        call exit", f"    la a0, greeting\n    li a1, {count}\n" + "    call ask\n" * 2 + "    call exit", 1)
            image = claiming(imports=(".ask(bb)p",), image=built(source.replace("    call ask\n", "    mv a2, a0\n    mv a3, a1\n    call ask\n", 1)))
            try:
                self.addCleanup(names.Plugin(image, ask=lambda *given: (found.append(given), DATA)[1], steps=steps).close)
            except sfi_run.NotReturned as failed:
                self.assertIs(failed.cause, Ended.REFUSED)
            self.assertEqual(len(found), number)


class Failing(Calls):
    """Calls by signature end as others do, and the next one is right: the cases of test_calls."""

    def plugin_of(self, handler):
        plugin = self.plugin(".parse(s)i", ".wild(s)v", ".spin(s)v", ".get(i)i", ".sum_by(i)i", image=CALLS, **({"ask": handler} if handler else {}))
        plugin.steps = STEPS
        return plugin

    def ended(self, call):
        try:
            call()
        except Unserved:
            return Unserved
        except sfi_run.NotReturned as failed:
            return failed.cause
        return None

    def test_a_call_ends(self):
        for function, handler, wanted in CASES:
            if handler is says_nothing:
                continue  # which answers 0 here
            with self.subTest(function=function, handler=handler):
                plugin = self.plugin_of(handler)
                self.assertEqual(self.ended(lambda: plugin.call(function, "x" * 20)), wanted)
                if handler not in LOST:
                    self.assertNotIsInstance(plugin.sandbox.event, (sfi_run.Ready, sfi_run.Call))
                    self.assertEqual((plugin.get(61), plugin.get(0)), (1061, 1000))

    def test_no_frame_is_left(self):
        plugin = self.plugin_of(raises)
        for _ in range(1000):
            self.assertIs(self.ended(lambda: plugin.parse("x" * 100)), Unserved)
        self.assertEqual([plugin.get(number) for number in range(64)], list(range(1000, 1064)))

    def test_a_buffer_of_a_failed_call_stays(self):
        buffer = bytearray(b"abcd")
        plugin = self.plugin(".raise(wi)v", ".forward(w)v")
        plugin.steps = 10
        for name, given in (("raise", (buffer, 0)), ("forward", (buffer,))):
            with self.assertRaises(sfi_run.NotReturned):
                plugin.call(name, *given)
            self.assertEqual(buffer, b"abcd")
            buffer.append(1)  # nothing holds it
            buffer.pop()

    def test_four_threads(self):
        plugin, wrong, done = self.plugin(".tail(s)s", ".raise(w)v", ".forward(s)u", ".length(s)u", imports=(".ask(s)u",),
                                          ask=lambda text: plugin.length(text)), [], []

        def work(number):
            for count in range(500):
                text, buffer = f"{number} {count}" * number, bytearray([number] * 40)
                plugin.call("raise", buffer)
                if (plugin.tail(text), buffer, plugin.forward(text)) != (text[1:], bytes([number + 1] * 40), len(text)):
                    wrong.append((number, count))
            done.append(number)
        threads = [threading.Thread(target=work, args=(number,)) for number in range(1, 5)]
        for thread in threads:
            thread.start()
        for thread in threads:
            thread.join()
        self.assertEqual((wrong, sorted(done)), ([], [1, 2, 3, 4]))


if __name__ == "__main__":
    unittest.main()
