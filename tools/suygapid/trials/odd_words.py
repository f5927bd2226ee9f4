"""Images of code in words, with masks of two steps and with single ones, that are accepted, nearly, or not at all, to compare checkers
on, and to run."""
import random
import struct

from suygapid.image.layout import SINGLE, WORDS, Part, spelled
from suygapid.isa.encoding import b_type, jal, s_type
from suygapid.trials import images, odd_images, word_rules

DATA_SIZE = 256
REGISTERS = [0, 1, 2, 2, 3, 4, 5, 8, 10, 24, 25, 26, 26, 27, 28, 29, 30, 31]
NUMBERS = [0, 0, 1, 4, -4, 16, -16, 1019, 1020, 1020, 1021, -1020, -1020, -1021, 2047, -2048]
NOP, EBREAK = struct.pack("<I", 0x13), struct.pack("<I", 0x100073)


def and_(rd, a, b):
    return images.r_word(0, b, a, 7, rd)


def or_(rd, a, b):
    return images.r_word(0, b, a, 6, rd)


class Pieces:
    """Instructions of which code is put together, with the registers and numbers that the rules ask for, and others."""
    registers, rules = REGISTERS, word_rules.WORDS

    def __init__(self, pick, size):
        self.pick, self.size = pick, size
        self.makers = [self.placed, self.written, self.written, self.stepped, self.stepped, self.access, self.access, self.jump,
                       self.jump, self.target, self.computed, self.halves, self.halves, self.any_word, self.odd]

    def register(self):
        return self.pick.choice(self.registers)

    def target_register(self):
        return self.pick.choice(self.rules.data_registers)

    def number(self):
        return self.pick.choice(NUMBERS + [self.pick.randrange(-2048, 2048)])

    def nearly(self, right, wrong):
        return right if self.pick.random() < 0.9 else wrong

    def placed(self, _at):
        mask = self.nearly(and_(31, self.register(), 27), self.pick.choice([self.writer(31), and_(31, self.register(), 25)]))
        target = self.target_register()
        place = or_(target, self.nearly(31, 2), self.nearly(26, 27))
        return mask * self.pick.randrange(2) + place + self.access(0, target) * self.pick.randrange(2)

    def put_back(self, target):
        """What comes after a write of a data register, rightly or nearly."""
        mask = and_(31, self.nearly(target, 10), self.nearly(27, 25))
        return mask + or_(target, self.nearly(31, target), self.nearly(26, 24))

    def writer(self, target):
        pick = self.pick.randrange(8)
        if pick < 2:  # c.mv and c.li, before or after a c.nop
            half = struct.pack("<H", (0x8002 if pick else 0x4001) | target << 7 | self.pick.randrange(1, 32) << 2)
            return self.pick.choice([b"\x01\0" + half, half + b"\x01\0"])
        if pick < 4:
            return self.access(0, self.pick.choice(self.rules.bases), target)
        if pick == 4:
            return images.r_word(0, self.register(), self.register(), 0, target)
        if pick == 5:
            return struct.pack("<I", self.pick.getrandbits(20) << 12 | target << 7 | self.pick.choice([0x37, 0x37, 0x17, 0x6F]))
        return images.i_word(self.number(), self.register(), 0, target, 0x13)

    def written(self, _at):
        target = self.target_register()
        return self.writer(target) + (self.put_back(target) if self.pick.random() < 0.9 else b"")

    def step(self, target):
        if self.pick.random() < 0.3:  # c.addi
            half = struct.pack("<H", 0x0001 | target << 7 | self.pick.randrange(1, 32) << 2 | self.pick.randrange(2) << 12)
            return self.pick.choice([b"\x01\0" + half, half + self.access_short()])
        return images.i_word(self.number(), self.nearly(target, 10), 0, target, 0x13)

    def stepped(self, _at):
        target = self.target_register()
        use = self.access(0, self.nearly(target, 5)) if self.pick.random() < 0.8 else self.put_back(target)
        return self.step(target) + use

    def access(self, _at, base=None, rd=None):
        base = self.pick.choice([self.target_register(), 26, self.register()]) if base is None else base
        if rd is not None or self.pick.random() < 0.5:
            rd = self.register() if rd is None else rd
            return images.i_word(self.number(), base, self.pick.choice([0, 1, 2, 4, 5]), rd, 0x03)
        return struct.pack("<I", s_type(self.number(), self.register(), base, self.pick.randrange(3)))

    def access_short(self):
        """c.lwsp or c.swsp"""
        return struct.pack("<H", self.pick.choice([0x4002 | self.pick.choice([1, 2, 5, 10]) << 7, 0xC002]) | self.pick.randrange(32) << 2)

    def jump(self, _at):
        mask = and_(30, self.register(), self.nearly(25, 27)) if self.pick.random() < 0.9 else b""
        place = or_(30, 30, self.nearly(24, 26)) if self.pick.random() < 0.9 else b""
        number, base = self.pick.choice([0] * 9 + [4]), self.nearly(30, self.register())
        return mask + place + images.i_word(number, base, 0, self.pick.choice([0, 1, 1, 5]), 0x67)

    def target(self, at):
        step = 4 if self.pick.random() < 0.9 else 2
        offset = self.pick.randrange(max(0, at - 1000) & ~3, min(self.size + 8, at + 1000), step) - at
        if self.pick.random() < 0.5:
            return struct.pack("<I", b_type(offset, self.register(), self.register(), self.pick.choice([0, 1, 4, 5, 6, 7])))
        return struct.pack("<I", jal(offset, self.pick.choice([0, 1, 1, 5])))

    def computed(self, _at):
        if self.pick.random() < 0.5:
            return images.i_word(self.number(), self.register(), self.pick.choice([0, 2, 4, 7]), self.register(), 0x13)
        return images.r_word(self.pick.choice([0, 1, 32]), self.register(), self.register(), self.pick.choice([0, 5, 6, 7]), self.register())

    def halves(self, _at):
        """Two of 16 bits, where a random one doesn't begin a word of 32."""
        some = [0x0001, 0x9002, 0x8082, 0x8F02, 0x9F02, self.pick.getrandbits(16), self.pick.getrandbits(16)]
        return b"".join(struct.pack("<H", half if half & 3 != 3 else half - 1) for half in (self.pick.choice(some), self.pick.choice(some)))

    def any_word(self, _at):
        seven = self.pick.choice([0, 1, 32, self.pick.getrandbits(7)])
        opcode = self.pick.choice(odd_images.OPCODES)
        return struct.pack("<I", seven << 25 | self.pick.getrandbits(18) << 7 | opcode)

    def odd(self, _at):
        """A word across the end of another, a call, or what is none."""
        word = self.access(0, self.register())
        across = b"\x01\0" + word + b"\x01\0"
        return self.pick.choice([across, across, struct.pack("<I", 0x73), struct.pack("<I", 0x100073), self.pick.randbytes(4)])

    def code(self):
        """Pieces until it is full, and mostly what a region may end in."""
        made = b""
        while len(made) < self.size:
            made += self.pick.choice(self.makers)(len(made))
        ends = [0x00100073] * 6 + [0x90020001, 0x000F0067, 0xFFDFF06F, 0x00000013, 0x00000073, 0x00019002, 0x00010101]
        return made[: self.size - 4] + struct.pack("<I", self.pick.choice(ends))


class SinglePieces(Pieces):
    """The same with single masks."""
    registers, rules = [*REGISTERS, 26, 31, 31], word_rules.SINGLE

    def placed(self, _at):
        target = self.target_register()
        return and_(target, self.register(), self.nearly(27, 26)) + self.access(0, target) * self.pick.randrange(2)

    def put_back(self, target):
        return and_(self.nearly(target, 10), self.register(), self.nearly(27, 25))


PIECES = {WORDS: Pieces, SINGLE: SinglePieces}


def gate_places(pick, size):
    return sorted(pick.sample(range(0, size, 16), pick.choice([0, 0, 1, 3])))


def repaired(code, gates, but=(), rules=word_rules.WORDS):
    """The code with no-operations where a rule is broken, those of `but` aside; None where that doesn't end soon."""
    code = bytearray(code)
    for _ in range(40):
        found = word_rules.findings(bytes(code), gates, but, rules)
        if not found:
            return bytes(code)
        for place, rule in found:
            at = place & ~3
            for place in {at, max(at - 4, 0)} if rule in ("V10", "V11") else {at}:
                code[place : place + 4] = NOP if place + 4 < len(code) else EBREAK
    return None


def with_calls(code, gates):
    """The same with a call at each gate."""
    changed = bytearray(code)
    for place in gates:
        changed[place : place + 4] = struct.pack("<I", 0x73)
    return bytes(changed)


def made_code(pick, size, format=WORDS):
    """Random code that keeps the rules, and its gates."""
    while True:
        gates, pieces = gate_places(pick, size), PIECES[format](pick, size)
        code = repaired(with_calls(pieces.code(), gates), gates, rules=pieces.rules)
        if code:
            return code, gates


def image(sandboxes, format=WORDS):
    """The bytes of an image with these sandboxes, each its code and the places of its gates."""
    places = [images.place_of(n, 256, format) for n in range(len(sandboxes))]
    return spelled(images.MAGICS[format], [Part(base, code, data, DATA_SIZE, base, {base + place: 1 for place in gates})
                                           for (base, data), (code, gates) in zip(places, sandboxes)])


def odd_sandbox(pick, size, format):
    """Code of all sorts, or that keeps the rules with some bits flipped."""
    if pick.random() < 0.5:
        gates = gate_places(pick, size)
        code = PIECES[format](pick, size).code()
        return (code if pick.random() < 0.5 else with_calls(code, gates)), gates
    code, gates = made_code(pick, size, format)
    return odd_images.flipped(pick, code, 3), gates


def small_image(seed, format=WORDS):
    """One image of few words, of all sorts."""
    pick = random.Random(seed)
    return image([odd_sandbox(pick, 256, format) for _ in range(pick.choice([1, 1, 2]))], format)


def large_sandboxes(seed, format=WORDS):
    pick = random.Random(seed)
    sandboxes = []
    for _ in range(16):
        gates = gate_places(pick, 65536)
        sandboxes.append((with_calls(PIECES[format](pick, 65536).code(), gates), gates))
    return sandboxes
