"""Tests of tools/second_checker.py for code in words with single masks: by rows worked by hand."""
import struct
import unittest

import second_checker
from suygapid.isa.encoding import i_type, jal, r_type, s_type, u_type

CODE, DATA, SIZE = 0x80000000, 0x40000000, 0x1000
AND, OR, ADDI, ALL_ONES = 7, 6, 0, 0xFFFFF000
EBREAK = 0x00100073
LAST = 1 << 32


def and_(rd, rs1, rs2):
    return r_type(0, rs2, rs1, AND, rd)


def or_(rd, rs1, rs2):
    return r_type(0, rs2, rs1, OR, rd)


def addi(rd, rs1, number):
    return i_type(number, rs1, ADDI, rd, 0x13)


def lw(rd, number, rs1):
    return i_type(number, rs1, 2, rd, 0x03)


def sw(rs2, number, rs1):
    return s_type(number, rs2, rs1, 2)


def jalr(rd, rs1, number=0):
    return i_type(number, rs1, 0, rd, 0x67)


def lui(rd, number):
    return u_type(number, rd, 0x37)


def two(first, second):
    """A word of two 16-bit forms."""
    return second << 16 | first


C_NOP, C_MV_SP_A0, C_ADDI16SP_16, C_LWSP_A0 = 0x0001, 0x812A, 0x6141, 0x4502
ECALL = 0x73


def image(words, magic=b"SFIS", places=((CODE, DATA, SIZE),), gates=()):
    """An image whose first sandbox has these words, and then ebreaks."""
    made = magic + struct.pack("<I", len(places))
    for number, (code, data, size) in enumerate(places):
        listed = gates if number == 0 else ()
        own = [*(words if number == 0 else ()), *[EBREAK] * 64][:64]
        made += struct.pack("<7I", code, 256, data, size, code, len(listed), 0)
        made += b"".join(struct.pack("<2I", *gate) for gate in listed) + struct.pack("<64I", *own)
    return made


def found(words, gates=()):
    """The places in words, of 4 bytes, and the rules of the findings."""
    status, lines = second_checker.judged(image(words, gates=gates))
    rows = [line.split()[1:3] for line in lines[:-1]]
    assert status == (1 if rows else 0), lines
    return [((int(at, 16) - CODE) / 4, rule) for at, rule in rows]


ACCEPTED = {
    "nothing": [],
    # V10 (a): the mask alone, of any register, into each of the six.
    "a mask of any register": [and_(d, a, 27) for d in (2, 3, 4, 26, 29, 31) for a in (0, 1, 5, 26, 31)],
    # (b): any other write, directly before a mask.
    "a write before its mask": [addi(2, 2, -2000), and_(2, 2, 27)],
    "a write before a mask of another register": [lui(26, 5), and_(26, 10, 27)],
    "a load before its mask": [lw(31, 2047, 4), and_(31, 31, 27)],
    "an or before its mask": [or_(4, 31, 26), and_(4, 4, 27)],
    "a write in the second half of a word": [two(C_NOP, C_MV_SP_A0), and_(2, 2, 27)],
    # (c): a step, and then a use in reach.
    "a step before a use at 1020": [addi(2, 2, 2047), lw(10, 1020, 2), addi(31, 31, -2048), sw(10, -1020, 31)],
    "a step and its use in one word": [two(C_ADDI16SP_16, C_LWSP_A0)],
    "a step before a mask": [addi(26, 26, 4), and_(26, 26, 27)],
    "a step before a store of x0": [addi(29, 29, 8), sw(0, 0, 29)],
    "a step before a load into itself": [addi(3, 3, 4), lw(3, 0, 3), and_(3, 3, 27)],
    # V5: each data register, and all offsets.
    "accesses": [lw(10, offset, base) for base in (2, 3, 4, 26, 29, 31) for offset in (-2048, 2047)],
    "a load into x0": [lw(0, 0, 2)],
    # V6, V11: as in words.
    "a jump": [and_(30, 1, 25), or_(30, 30, 24), jalr(1, 30), jalr(0, 30)],
    "x31 and x26 are read": [addi(10, 31, 4), addi(10, 26, 4)],
}

REFUSED = {
    "the first step of words alone": ([and_(31, 2, 27), or_(2, 31, 26)], [(2, "V10")]),
    "the last step of words": ([or_(2, 31, 26), or_(2, 2, 26), and_(2, 2, 27)], [(1, "V10")]),
    "a mask by x25": ([and_(2, 2, 25)], [(1, "V10")]),
    "a mask by x26": ([and_(2, 2, 26)], [(1, "V10")]),
    "operands swapped": ([and_(2, 27, 10)], [(1, "V10")]),
    "into another register": ([addi(2, 2, 16), and_(3, 2, 27)], [(1, "V10")]),
    "something between": ([addi(2, 2, 16), addi(10, 10, 1), and_(2, 2, 27)], [(1, "V10")]),
    "c.nop between": ([two(C_MV_SP_A0, C_NOP), and_(2, 2, 27)], [(0.5, "V10")]),
    "two writes": ([addi(2, 2, 16), addi(2, 2, 16), and_(2, 2, 27)], [(1, "V10")]),
    "x26 is one": ([addi(26, 0, 0)], [(1, "V10")]),
    "x31 is one": ([addi(31, 0, 0)], [(1, "V10")]),
    "a use at 1021": ([addi(2, 2, 16), lw(10, 1021, 2)], [(1, "V10")]),
    "a use at -1021": ([addi(2, 2, 16), sw(10, -1021, 2)], [(1, "V10")]),
    "a use of another": ([addi(2, 2, 16), lw(10, 0, 3)], [(1, "V10")]),
    "a use that is a load into x0": ([addi(2, 2, 16), lw(0, 0, 2)], [(1, "V10")]),
    "a step from another": ([addi(2, 3, 16), lw(10, 0, 2)], [(1, "V10")]),
    "a use after what is no step": ([or_(2, 2, 26), lw(10, 0, 2)], [(1, "V10")]),
    "a use that is a load into a data register": ([addi(2, 2, 16), lw(2, 0, 2), addi(10, 10, 1)], [(2, "V10")]),
    "a link": ([jal(8, 2)], [(0, "V10")]),
    "a link of a register": ([jalr(31, 30)], [(0, "V10")]),
    "a mask of V4": ([and_(27, 26, 27)], [(0, "V4")]),
    "reserved": ([addi(24, 0, 0), addi(25, 0, 0), addi(27, 0, 0)], [(0, "V4"), (1, "V4"), (2, "V4")]),
    "accesses": ([lw(10, 0, 0), sw(10, 0, 10), lw(10, 0, 30), lw(10, 0, 27)], [(0, "V5"), (1, "V5"), (2, "V5"), (3, "V5")]),
    "a lower rule hides V10": ([addi(2, 2, 16), lw(10, 0, 10), and_(2, 2, 27)], [(1, "V5")]),
    "an ecall": ([ECALL], [(0, "V3")]),
    "jumps": ([jalr(0, 31), jalr(0, 30, 4)], [(0, "V6"), (1, "V6")]),
    "x30": ([addi(30, 30, 4), and_(30, 30, 25), addi(10, 10, 1), or_(30, 30, 26)], [(0, "V11"), (2, "V11"), (3, "V11")]),
}

# Where code, data and their size lie, by sandbox, and the fault.
PLACES = [
    ([(CODE, DATA, SIZE)], None),
    ([(CODE, 0x40001000, SIZE)], "5 Data"),  # two bits
    ([(CODE, 0x60000000, SIZE)], "5 Data"),
    ([(CODE, 0, SIZE)], "5 Data"),
    ([(CODE, 0x1000, 0x2000)], "5 Data"),  # the size above the base
    ([(CODE, 0x2000, 0x2000)], "6 GuardRoom"),  # in the zone of [0, 3000)
    ([(CODE, 0x1000, 0x100)], "6 GuardRoom"),
    ([(CODE, 0x4000, 0x2000)], None),  # 2000 + 1000 + 1000 above 0
    ([(CODE, 0x2000, 0x1000)], "10 Overlap"),  # the guard zone before the data is in the zone [0, 2000)
    ([(0x1F00, DATA, SIZE)], "6 GuardRoom"),
    ([(0x2000, DATA, SIZE)], None),
    ([(0x100F00, DATA, 0x100000)], "6 GuardRoom"),
    ([(0x101000, DATA, 0x100000)], None),
    ([(LAST - 0x1100, DATA, SIZE)], None),  # the zone goes round: its last 1000 bytes lie below 2 ^ 32
    ([(LAST - 0x1000, DATA, SIZE)], "6 GuardRoom"),
    ([(LAST - 0x100, DATA, SIZE)], "6 GuardRoom"),
    ([(CODE, 0x80000000, 0x40000000)], "10 Overlap"),  # with the code
    ([(0xC0001000, 0x80000000, 0x40000000)], None),  # 1 GiB
    ([(0xC0001000, 0x40000000, 0x40000000)], "6 GuardRoom"),
    ([(CODE, DATA, SIZE), (CODE + 0x100, 0x20000000, SIZE)], None),
    ([(CODE, DATA, SIZE), (0x2000, 0x20000000, 0x100)], None),
    ([(CODE, DATA, 0x2000), (0x2000, 0x20000000, 0x100)], "10 Overlap"),  # code in the zone of another
    ([(0x2000, 0x20000000, 0x100), (CODE, DATA, 0x2000)], "10 Overlap"),
    ([(CODE, DATA, 0x10000), (CODE + 0x100, 0x10000, 0x100)], "10 Overlap"),  # data there
    ([(CODE, DATA, 0x8000), (CODE + 0x100, 0x10000, 0x100)], None),
    ([(CODE + n * 0x100, 1 << 21 + n, 1 << 20) for n in range(10)], None),
    ([(CODE, 1 << 31, 1 << 20)], "10 Overlap"),
    ([(0xC0000000 + n * 0x100, 1 << 21 + n, 1 << 20) for n in range(11)], None),  # as many as there may be with 1 MiB
    ([*((0xC0000000 + n * 0x100, 1 << 21 + n, 1 << 20) for n in range(11)), (0xD0000000, 1 << 20, 256)], "10 Overlap"),
]


class Rules(unittest.TestCase):
    def test_accepted(self):
        for name, words in ACCEPTED.items():
            with self.subTest(name):
                self.assertEqual(found(words), [])

    def test_refused(self):
        for name, (words, wanted) in REFUSED.items():
            with self.subTest(name):
                self.assertEqual(found(words), wanted)

    def test_gates(self):
        self.assertEqual(found([ECALL], [(CODE, 0)]), [])

    def test_names(self):
        _, lines = second_checker.judged(image([addi(31, 0, 0)]))
        self.assertEqual(lines[0], "0 80000004 V10 data ebreak")

    def test_words_have_other_rules(self):
        """What single masks take words refuse, and the other way round."""
        def judged(*words):
            return second_checker.judged(image(words, b"SFIW"))[0]
        self.assertEqual(judged(and_(31, 2, 27), or_(2, 31, 26)), 0)
        self.assertEqual(judged(and_(2, 2, 27)), 1)
        self.assertEqual(judged(addi(31, 0, 0)), 1)
        self.assertEqual(judged(addi(26, 0, 0), and_(26, 26, 27)), 1)


class Layouts(unittest.TestCase):
    def test_places(self):
        for places, fault in PLACES:
            with self.subTest([tuple(map(hex, it)) for it in places]):
                status, lines = second_checker.judged(image((), places=places))
                self.assertEqual(lines[-1].removeprefix("layout fault ") if status else None, fault)

    def test_other_formats_have_no_zone(self):
        for magic in (b"SFI1", b"SFI2", b"SFIW"):
            self.assertEqual(second_checker.judged(image((), magic, [(0x100, 0x3000, SIZE)]))[0], 0)


if __name__ == "__main__":
    unittest.main()
