"""Tests of debug information after the passes: `tools/unit_tests.py tools/suygapid/passes`. What is wanted is told by what the
instructions do."""
import unittest

from suygapid.passes.assembly import Refused
from suygapid.passes.rewriting import Rewriting, rewritten
from suygapid.passes.typed import WORDS

FUNCTION = """\t.text
f:
.LVL0:
\taddi a5,a0,4
.LVL1:
\tlw a1,0(a5)
\tlw a2,4(a5)
.LVL2:
\tsub a3,a1,a2
.LVL3:
\tret
"""
LISTS = """\t.section .debug_loclists,"",@progbits
\t.4byte 100
\t.2byte 5
\t.byte 4
\t.byte 0
\t.4byte 0
.LLST0:
\t.byte {kind}
\t.4byte {range}
\t.byte {size}
\t.byte {expression}
\t.byte 0
"""
ENTRIES = """\t.section .debug_info,"",@progbits
\t.4byte 100
\t.2byte 5
\t.byte 1
\t.byte 4
\t.4byte .Labbrev
\t.byte 1
\t.4byte .LVL0
\t.byte 2
\t.string "x\\"y"
\t.byte {size}
\t.byte {expression}
\t.byte 0
\t.section .debug_abbrev,"",@progbits
.Labbrev:
\t.byte 1,0x2e,1,0x11,1,0,0
\t.byte 2,0x34,0,3,8,2,0x18,0,0
\t.byte 0
"""
TARGETED = ("sharing", "targeting")  # with these a5 is never written, but gp


def said_after(mark, text):
    """The lines after the one with a mark, up to a line that ends a list or a section, without tabs."""
    lines = [" ".join(line.split()) for line in text.partition(mark)[2].split("\n")[1:]]
    return lines[:next(number for number, line in enumerate(lines) if line == ".byte 0" or line.startswith(".section"))]


class Lists(unittest.TestCase):
    def found(self, expression, place=".LVL1,.LVL2", passes=TARGETED, kind=7):
        data = LISTS.format(kind=kind, range=place.replace(",", "\n\t.4byte "), size=expression.count(",") + 1, expression=expression)
        return said_after(".LLST0:", rewritten("a.s", FUNCTION + data, passes, WORDS))

    def test_a_register_that_is_not_written_is_not_shown(self):
        rows = [("0x5f", 0), ("0x7f,0", 0), ("0x5a", 5), ("0x91,0x5f", 5), ("0xa3,1,0x5f,0x9f", 5), ("0x5a,0x93,4,0x5f,0x93,4", 0)]
        for expression, count in rows:
            with self.subTest(expression=expression):
                self.assertEqual(len(self.found(expression)), count)
                self.assertEqual(len(self.found(expression, passes=())), 5)

    def test_the_range_before_it_is_shown(self):
        found = self.found("0x5f", ".LVL0,.LVL3")
        self.assertEqual((found[0], found[1], len(found)), (".byte 7", ".4byte .LVL0", 5))
        self.assertTrue(found[2].startswith(".4byte .Lsfi.shown"))

    def test_what_is_not_known_is_refused(self):
        with self.assertRaises(Refused) as caught:
            self.found("0x5f", kind=3)
        self.assertEqual(str(caught.exception), "a.s: debug information that isn't known: an entry of kind 3")


class Entries(unittest.TestCase):
    def found(self, expression, passes=TARGETED):
        data = ENTRIES.format(size=expression.count(",") + 1, expression=expression)
        return said_after(".string", rewritten("a.s", FUNCTION + data, passes, WORDS))

    def test_the_room_stays(self):
        self.assertEqual(self.found("0x5f"), [".byte 0x80, 0"])
        self.assertEqual(self.found("0x7f,4"), [".byte 0x80, 0x80, 0"])
        self.assertEqual(self.found("0x5a"), [".byte 1", ".byte 0x5a"])
        self.assertEqual(self.found("0x5f", ()), [".byte 1", ".byte 0x5f"])


class Frames(unittest.TestCase):
    def test_one_ends_with_its_function(self):
        """Before the next one begins nothing may be told of a frame, also where a pass puts a copy of the stack pointer there."""
        made = Rewriting("a.s", "\t.text\nf:\n\t.cfi_startproc\n\tret\n\t.cfi_endproc\n", (), 2)
        self.assertIn(".cfi_endproc", made.text())
        self.assertFalse(made.writer.frame.is_on_stack)


if __name__ == "__main__":
    unittest.main()
