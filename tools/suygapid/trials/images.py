"""Accepted images for measuring: sandboxes full of random code of one kind."""
import random
import struct

from suygapid.image.layout import MAGICS, SINGLE, WORDS, Part, spelled
from suygapid.isa.encoding import b_type, i_type, jal, r_type, s_type

# mixed: accesses and indirect jumps after their pairs, branches, jumps, computations of both lengths; wide: 32-bit computations
# alone; short: 16-bit forms alone; pairs: in each bundle one access after its pair, and one computation. In code in words accesses need no
# pair; there mixed code has one for every two accesses, and steps of data registers.
KINDS = ["mixed", "wide", "short", "pairs"]
DATA_REGISTERS = [2, 3, 4, 29]  # in words, and with single masks
OF_SINGLE = [*DATA_REGISTERS, 26, 31]

# From the smallest image to the largest: how many sandboxes, the bytes of code and the first bytes of data of each, and the format.
SIZES = [(1, 256, 0, 1), (1, 65536, 0, 1), (16, 65536, 0, 1), (16, 65536, 1048576, 1), (16, 1048576, 1048576, 2)]


def r_word(*fields):
    return struct.pack("<I", r_type(*fields))


def i_word(*fields):
    return struct.pack("<I", i_type(*fields))


class Code:
    """Makes bundles: each method gives whole bytes of accepted code."""

    def __init__(self, seed, size, format):
        self.random = random.Random(seed)
        self.size = size
        # Registers that no rule reserves, and that are not x0.
        typed = {1: [], 2: [2], WORDS: [*DATA_REGISTERS, 30, 31], SINGLE: [*OF_SINGLE, 30]}[format]
        self.free = [r for r in range(1, 32) if not 24 <= r <= 27 and r not in typed]

    def register(self):
        return self.random.choice(self.free)

    def computation(self):
        pick = self.random
        if pick.random() < 0.5:
            return r_word(pick.choice([0, 1]), self.register(), self.register(), pick.randrange(8), self.register())
        return i_word(pick.randrange(4096), self.register(), pick.choice([0, 2, 3, 4, 6, 7]), self.register(), 0x13)

    def short(self):
        pick = self.random
        rd = self.register()
        kind = pick.randrange(4)
        if kind == 0:  # c.addi rd, 1 to 31
            return struct.pack("<H", rd << 7 | pick.randrange(1, 32) << 2 | 0b01)
        if kind == 1:  # c.li rd, 0 to 31
            return struct.pack("<H", 0b010 << 13 | rd << 7 | pick.randrange(32) << 2 | 0b01)
        if kind == 2:  # c.mv rd, rs2
            return struct.pack("<H", 0b1000 << 12 | rd << 7 | self.register() << 2 | 0b10)
        # c.sub, c.xor, c.or, c.and on x8 to x15
        return struct.pack("<H", 0b100011 << 10 | pick.randrange(8) << 7 | pick.randrange(32) << 2 | 0b01)

    def pair(self, mask, base):
        """and target, a, mask; or target, target, base"""
        target = self.register()
        return target, r_word(0, mask, self.register(), 7, target) + r_word(0, base, target, 6, target)

    def access(self):
        target, pair = self.pair(27, 26)
        if self.random.random() < 0.5:
            return pair + i_word(self.random.randrange(4096), target, self.random.choice([0, 1, 2, 4, 5]), self.register(), 0x03)
        rs2, three = self.register(), self.random.randrange(3)
        return pair + struct.pack("<I", s_type(self.random.randrange(32), rs2, target, three))

    def indirect_jump(self):
        target, pair = self.pair(25, 24)
        return pair + i_word(0, target, 0, self.random.choice([0, 1]), 0x67)

    def offset(self, at):
        """from at to a bundle start at most 100 bundles away"""
        return min(max(at // 16 + self.random.randrange(-100, 100), 0), self.size // 16 - 1) * 16 - at

    def branch(self, at):
        return struct.pack("<I", b_type(self.offset(at), self.register(), self.register(), 0))

    def jump(self, at):
        return struct.pack("<I", jal(self.offset(at), self.random.choice([0, 1])))

    def bundle(self, kind, at):
        if kind == "wide":
            return b"".join(self.computation() for _ in range(4))
        if kind == "short":
            return b"".join(self.short() for _ in range(8))
        if kind == "pairs":
            return self.access() + self.computation()
        pick = self.random.random()
        if pick < 0.4:
            return self.access() + self.short() + self.short()
        if pick < 0.5:
            return self.indirect_jump() + self.computation()
        if pick < 0.65:
            return self.computation() + self.short() + self.short() + self.computation() + self.branch(at + 12)
        if pick < 0.75:
            return self.computation() + self.computation() + self.short() + self.short() + self.jump(at + 12)
        return self.plain()

    def plain(self):
        return self.short() + self.computation() + self.computation() + self.computation() + self.short()


class WordCode(Code):
    """The same of code in words, 16 bytes at a time."""
    format, data_registers = WORDS, DATA_REGISTERS

    def __init__(self, seed, size):
        super().__init__(seed, size, self.format)

    def on_data(self, target, offset):
        if self.random.random() < 0.6:
            return i_word(offset, target, self.random.choice([0, 1, 2, 4, 5]), self.register(), 0x03)
        return struct.pack("<I", s_type(offset, self.register(), target, self.random.randrange(3)))

    def put(self, target):
        """and x31, a, x27; or target, x31, x26"""
        return r_word(0, 27, self.register(), 7, 31) + r_word(0, 26, 31, 6, target)

    def access(self):
        target = self.random.choice(self.data_registers)
        return self.put(target) + self.on_data(target, self.random.randrange(-2048, 2048))

    def accesses(self):
        """two, with a register put into the data before them, or with a step before the first"""
        target = self.random.choice(self.data_registers)
        second = self.on_data(target, self.random.randrange(-2048, 2048))
        if self.random.random() < 0.5:
            return self.access() + second
        step = i_word(self.random.randrange(4096), target, 0, target, 0x13)
        return step + self.on_data(target, self.random.randrange(-1020, 1021)) + second + self.short() + self.short()

    def indirect_jump(self):
        """and x30, a, x25; or x30, x30, x24; jalr"""
        pair = r_word(0, 25, self.register(), 7, 30) + r_word(0, 24, 30, 6, 30)
        return pair + i_word(0, 30, 0, self.random.choice([0, 1]), 0x67)

    def plain(self):
        return self.computation() + self.computation() + self.short() + self.short() + self.computation()

    def bundle(self, kind, at):
        return self.accesses() if kind == "mixed" and self.random.random() < 0.4 else super().bundle(kind, at)


class SingleCode(WordCode):
    """The same with single masks: the register is put a second time in the place of the first step."""
    format, data_registers = SINGLE, OF_SINGLE

    def put(self, target):
        """two times and target, a, x27"""
        return r_word(0, 27, self.register(), 7, target) + r_word(0, 27, self.register(), 7, target)


def code_of(seed, size, format):
    in_words = {it.format: it for it in (WordCode, SingleCode)}
    return in_words[format](seed, size) if format in in_words else Code(seed, size, format)


def place_of(number, size, format):
    """Where code of that size, and 1 MiB of data, lie: the data beside the code, or above all code. With single masks the base of the
    data is a single bit, and at most 11 sandboxes have such places."""
    base, is_large = 0x01000000 * (number + 1), size >= 0x800000
    if format == SINGLE:
        return (0xC0000000 if is_large else 0x800000) + base, 1 << 31 - number
    return base, 0x20000000 + 0x200000 * number if is_large else base + 0x800000


def image(kind, sandboxes=16, code_size=65536, init=0, format=1, seed=0):
    """The bytes of an image with that many sandboxes, each with that much code, 1 MiB of data, and that many first data bytes. Another
    seed makes other code."""
    parts = []
    for n in range(sandboxes):
        code, (code_base, data_base) = code_of(seed + n, code_size, format), place_of(n, code_size, format)
        bundles = [code.bundle(kind, at) for at in range(0, code_size - 16, 16)]
        bundles.append(struct.pack("<H", 0x9002) * 8)  # c.ebreak: control can't run off the end
        parts.append(Part(code_base, b"".join(bundles), data_base, 1048576, code_base, init=bytes(init)))
    return spelled(MAGICS[format], parts)


def as_text(data):
    """The image as hexadecimal digits, in lines of 64."""
    return "".join(data[k : k + 32].hex() + "\n" for k in range(0, len(data), 32)).encode()
