"""Tests of sfi_run.signatures: the words of values, and the values of words. Words of floats and doubles are those of IEEE 754."""
import math
import unittest

from test_sfi_run import sfi_run  # which finds the package
from sfi_run import signatures
from sfi_run.signatures import Signature, claimed, parsed

# A letter, a value, and its words.
SAME = [("y", -1, (0xFFFFFFFF,)), ("y", -128, (0xFFFFFF80,)), ("y", 127, (127,)), ("c", 0, (0,)), ("c", 255, (255,)),
        ("h", -1 << 15, (0xFFFF8000,)), ("h", 32767, (32767,)), ("k", 0, (0,)), ("k", 65535, (65535,)), ("t", False, (0,)), ("t", True, (1,)),
        ("i", 0, (0,)), ("i", -1, (0xFFFFFFFF,)), ("i", (1 << 31) - 1, (0x7FFFFFFF,)), ("i", -1 << 31, (0x80000000,)),
        ("u", 1, (1,)), ("u", (1 << 32) - 1, (0xFFFFFFFF,)), ("p", 0, (0,)), ("p", (1 << 32) - 1, (0xFFFFFFFF,)),
        ("l", -1, (0xFFFFFFFF, 0xFFFFFFFF)), ("l", 2, (2, 0)), ("l", 1 << 32, (0, 1)), ("l", (1 << 63) - 1, (0xFFFFFFFF, 0x7FFFFFFF)),
        ("l", -1 << 63, (0, 0x80000000)), ("m", 0, (0, 0)), ("m", (1 << 64) - 1, (0xFFFFFFFF, 0xFFFFFFFF)), ("m", 1 << 63, (0, 0x80000000)),
        ("f", 1.0, (0x3F800000,)), ("f", -0.0, (0x80000000,)), ("f", math.inf, (0x7F800000,)), ("f", 2.0 ** -149, (1,)),
        ("f", 0.10000000149011612, (0x3DCCCCCD,)), ("d", 1.0, (0, 0x3FF00000)), ("d", -0.0, (0, 0x80000000)),
        ("d", -math.inf, (0, 0xFFF00000)), ("d", 0.1, (0x9999999A, 0x3FB99999)), ("d", 5e-324, (1, 0))]
# A letter, a value whose words are those of another, and these.
ALIKE = [("t", 0, (0,)), ("t", 1, (1,)), ("c", True, (1,)), ("i", (1 << 32) - 1, (0xFFFFFFFF,)), ("i", True, (1,)), ("u", -1, (0xFFFFFFFF,)), ("u", -1 << 31, (0x80000000,)),
         ("f", 0.1, (0x3DCCCCCD,)), ("f", 16777217, (0x4B800000,)), ("f", 2.0 ** -150, (0,)), ("f", 3.4028235e38, (0x7F7FFFFF,)),
         ("d", 3, (0, 0x40080000))]
# A letter, words that no value has there, and the value that their lowest bits have.
CUT = [("y", 200, -56), ("y", 0x80, -128), ("y", 0x100, 0), ("c", 300, 44), ("c", 0xFFFFFFFF, 255), ("h", 0x8000, -32768), ("h", 0x12345, 0x2345),
       ("k", 0xFFFFFFFF, 65535), ("k", 65536, 0), ("t", 2, True), ("t", 0x100, False), ("t", 0xFFFFFF80, True)]
UNFIT = [("y", 128), ("y", -129), ("y", 200), ("c", -1), ("c", 256), ("h", 32768), ("h", -32769), ("k", -1), ("k", 65536), ("t", 2), ("t", -1),
         ("i", 1 << 32), ("i", (-1 << 31) - 1), ("u", 1 << 32), ("u", (-1 << 31) - 1), ("l", 1 << 63), ("l", (-1 << 63) - 1), ("m", -1),
         ("m", 1 << 64), ("p", -1), ("p", 1 << 32), ("f", 1e39), ("f", 10 ** 400), ("d", 10 ** 400),
         *((letter, value) for letter in "ychktiulmp" for value in (1.0, "1", None, b"1")),
         *((letter, value) for letter in "fd" for value in ("1", None, b"1", 1j))]


class Values(unittest.TestCase):
    def test_words_and_values(self):
        for letter, value, words in SAME:
            with self.subTest(letter=letter, value=value):
                self.assertEqual(signatures.words_of(letter, value), words)
                found = signatures.value_of(letter, words)
                self.assertEqual((found, type(found), math.copysign(1, found)), (value, type(value), math.copysign(1, value)))
        for letter, value, words in ALIKE:
            self.assertEqual(signatures.words_of(letter, value), words)

    def test_narrow_values(self):
        for letter, word, value in CUT:
            found = signatures.value_of(letter, (word,))
            self.assertEqual((found, type(found)), (value, type(value)), (letter, word))

    def test_no_number(self):
        for letter, words in (("f", (0x7FC00000,)), ("d", (0, 0x7FF80000))):
            self.assertTrue(math.isnan(signatures.value_of(letter, words)))
            self.assertEqual(signatures.words_of(letter, math.nan), words)

    def test_values_that_a_letter_has_not(self):
        for letter, value in UNFIT:
            with self.subTest(letter=letter, value=value), self.assertRaises(signatures.UNFIT):
                signatures.words_of(letter, value)

    def test_texts_and_bytes(self):
        for value, data in (("", b"\0"), ("aä€😀", b"a\xc3\xa4\xe2\x82\xac\xf0\x9f\x98\x80\0")):
            self.assertEqual(signatures.data_of("s", value), data)
        for value in (b"", b"a\0b", bytearray(b"ab"), memoryview(b"abcd")[::2]):
            self.assertEqual(signatures.data_of("b", value), bytes(value))
        for value in (bytearray(b"a\0b"), bytearray(), memoryview(bytearray(8)).cast("I")):
            self.assertEqual(signatures.data_of("w", value), value.tobytes() if isinstance(value, memoryview) else bytes(value))
        for letter, values in (("s", ("a\0b", "\0", b"ab", 5, None, "\ud800")), ("b", ("ab", 5, None, [1])),
                               ("w", (b"ab", "ab", 5, None, memoryview(bytearray(4))[::2], memoryview(b"a")))):
            for value in values:
                with self.subTest(letter=letter, value=value), self.assertRaises(signatures.UNFIT):
                    signatures.data_of(letter, value)


class Texts(unittest.TestCase):
    def test_signatures(self):
        for text in ("()v", "(ii)i", "(iulp)f", "(dlm)d", "(sbw)s", "(iiiiiiii)m", "(llll)l", "(bbbb)v", "(f)p", "(w)u", "(ychkt)y", "(ttttkkkk)t", "()c", "()h", "()k"):
            self.assertEqual(str(parsed(text)), text)
        for text in ("", "()", "(v)v", "(i)b", "(i)w", "(i)", "i", "(x)i", "(i)ii", "(i,i)i", "(i)i\n", " (i)i", "((i)i", "(I)i",
                     "(iiiiiiiii)i", "(lllll)v", "(iiiiiiib)v", "(ychkticyh)v", "(i)\u0131", "(" + "i" * 100000 + ")i"):
            self.assertIsNone(parsed(text), text[:20])

    def test_claims(self):
        for entry, found in ((".add(ii)i", ("add", Signature("ii", "i"))), (".a(b)(i)v", ("a(b)", Signature("i", "v"))),
                             (".x()s", ("x", Signature("", "s")))):
            self.assertEqual(claimed(entry), found)
        for entry in ("add(ii)i", ".(ii)i", "..add(ii)i", ".add", ".add(", ".add()", ".add(ii)", ".add(ii)x", ".room", ".stack", "", ".",
                      ".add(iiiiiiiii)i", ".add(ii)i)", "(i)i", ".add(i)i(", ".add)i(i"):
            self.assertIsNone(claimed(entry), entry)


class Taken(unittest.TestCase):
    def test_places(self):
        buffer = bytearray(b"xyz")
        words, blocks = signatures.taken("f", parsed("(isdbw)v"), (-1, "ä", 1.0, b"", buffer))
        self.assertEqual(words, [0xFFFFFFFF, 0, 0, 0x3FF00000, 0, 0, 0, 3])
        self.assertEqual([(it.register, it.data, it.buffer is buffer) for it in blocks], [(1, b"\xc3\xa4\0", False), (4, b"", False), (6, b"xyz", True)])

    def test_what_is_said(self):
        for text, given, why in (("(ii)i", (1,), "2 arguments are wanted, and not 1"), ("()v", (1, 2), "0 arguments are wanted, and not 2"),
                                 ("(iu)i", (1, 1 << 32), "argument 2 has to be an int from -2^31 to 2^32 - 1, and not 4294967296"),
                                 ("(c)v", (300,), "argument 1 has to be an int from 0 to 255, and not 300"),
                                 ("(t)v", (2,), "argument 1 has to be a bool, and not 2"),
                                 ("(s)v", (5,), r"argument 1 has to be a str without '\0', and not 5"),
                                 ("(wi)v", (b"ab", 1), "argument 1 has to be a bytearray, or another buffer that can be written, and not b'ab'")):
            with self.assertRaises(sfi_run.WrongArguments) as told:
                signatures.taken("it", parsed(text), given)
            wrong = told.exception
            self.assertIsInstance(wrong, TypeError)
            self.assertEqual((wrong.name, wrong.signature, wrong.given, wrong.why, str(wrong)), ("it", text, given, why, f"it{text}: {why}"))


if __name__ == "__main__":
    unittest.main()
