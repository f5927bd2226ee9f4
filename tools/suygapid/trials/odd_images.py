"""Images that are accepted, nearly, or not at all, to compare checkers on."""
import random
import struct

from suygapid.image.layout import Part, spelled
from suygapid.trials import images

STUB = bytes.fromhex("73000000b3ff9001b3ef8f0167800f00")
REGISTERS = [0, 1, 2, 2, 8, 9, 10, 24, 25, 26, 27, 31]
NUMBERS = [0, 1, 2, 4, 15, 16, 17, 64, 65, 255, 256, 257, 4095, 4096, 65536, 131072, 1048576, 2097152, 0x1000000, 0x1001000, 0x1002000,
           0x1800000, 0x2000000, 0x40000000, 0x7FFFFFFF, 0x80000000, 0xFFFFE000, 0xFFFFEF00, 0xFFFFFF00, 0xFFFFFFFF]
LARGE_DATA = [(0x01800000, 1 << 21), (0x02000000, 1 << 24), (0x20000000, 1 << 29), (0x40000000, 1 << 30), (0x20000000, 1 << 30),
              (0xC0000000, 1 << 30), (0x80000000, 1 << 31)]  # bases and sizes
OPCODES = [0x37, 0x17, 0x6F, 0x67, 0x63, 0x03, 0x23, 0x13, 0x33, 0x0F, 0x73, 0x1F]


class Pieces:
    """Instructions of which bundles are put together, with the registers and places that the rules ask for, and others."""

    def __init__(self, pick):
        self.pick = pick
        self.rest = b""  # what the last bundle had no room for
        self.makers = [self.pair, self.pair, self.stack_pair, self.access, self.short_access, self.jump, self.target, self.any_word,
                       self.any_word, self.any_half, self.any_half, self.system, self.free]

    def register(self):
        return self.pick.choice(REGISTERS)

    def mask(self, target):
        return images.r_word(0, self.pick.choice([25, 27, 27, 24, 26, 5]), self.register(), 7, target)

    def base(self, target):
        return images.r_word(0, self.pick.choice([24, 26, 26, 25, 27]), self.pick.choice([target] * 9 + [5]), 6, target)

    def pair(self):
        """A data or code pair, rightly or nearly, and mostly what it is for."""
        target, is_data = self.register(), self.pick.random() < 0.5
        mask, base = (27, 26) if is_data else (25, 24)
        right = images.r_word(0, mask, self.register(), 7, target) + images.r_word(0, base, target, 6, target)
        near = self.mask(target) + self.base(target)
        use = self.access(target) if self.pick.random() < 0.6 else self.jump(target)
        return self.pick.choice([right, right, right, near]) + (use if self.pick.random() < 0.8 else b"")

    def stack_pair(self):
        """What puts x2 back, before it mostly something that writes x2."""
        word = images.i_word(self.pick.randrange(4096), 2, self.pick.choice([0, 2]), 2, self.pick.choice([0x13, 0x03, 0x67, 0x0F]))
        jal = struct.pack("<I", self.pick.choice([12, 14, 16]) << 20 | 2 << 7 | 0x6F)
        before = self.pick.choice([b"", word, word, jal, struct.pack("<H", 0x1141), struct.pack("<H", 0x4112)])
        mask = images.r_word(0, self.pick.choice([27, 27, 25]), self.register(), 7, 2)
        base = images.r_word(0, self.pick.choice([26, 26, 24]), 2, 6, 2)
        return before + mask + (base if self.pick.random() < 0.8 else b"")

    def access(self, base=None):
        word = self.pick.getrandbits(32) & ~(31 << 15) & ~127 | self.pick.choice([0x03, 0x23])
        word = word & ~(31 << 7) | self.register() << 7
        return struct.pack("<I", word | (self.register() if base is None else base) << 15)

    def short_access(self):
        """c.lw, c.sw, c.lwsp or c.swsp"""
        kind = self.pick.choice([0x4000, 0xC000, 0x4002, 0xC002])
        return struct.pack("<H", self.pick.getrandbits(13) & ~3 | kind)

    def jump(self, base=None):
        base = self.register() if base is None else base
        if self.pick.random() < 0.3:
            return struct.pack("<H", self.pick.choice([0x8002, 0x9002]) | base << 7)
        return images.i_word(self.pick.choice([0, 0, 0, 0, 1, 16]), base, self.pick.choice([0] * 9 + [1]), self.register(), 0x67)

    def target(self):
        """jal, a branch, or a short form, of few bundles mostly."""
        if self.pick.random() < 0.5:
            return struct.pack("<H", self.pick.getrandbits(13) & ~3 | self.pick.choice([0x2001, 0xA001, 0xC001, 0xE001]))
        if self.pick.random() < 0.5:
            return struct.pack("<I", (self.pick.randrange(64) << 21) | self.register() << 7 | 0x6F)
        branch = self.pick.choice([0, 0, 4, 2]) << 12 | self.pick.choice([0, 127, 1]) << 25 | 0x63
        return struct.pack("<I", self.pick.randrange(32) << 7 | branch)

    def any_word(self):
        word = self.pick.getrandbits(32) & ~127 | self.pick.choice(OPCODES)
        seven = self.pick.choice([0, 1, 0x20, word >> 25])
        return struct.pack("<I", word & 0x1FFF_FFFF & ~(127 << 25) | seven << 25)

    def any_half(self):
        return struct.pack("<H", self.pick.getrandbits(16))

    def system(self):
        return struct.pack("<I", self.pick.choice([0x73, 0x00100073, 0x00100073, 0x00200073]))

    def free(self):
        return self.pick.choice([struct.pack("<H", 0x0001), struct.pack("<I", 0x13)])

    def bundle(self):
        """Pieces until it is full; it may begin with what the one before had no room for."""
        made = self.rest if self.pick.random() < 0.5 else b""
        while len(made) < 16:
            made += self.pick.choice(self.makers)()
        self.rest = made[16:]
        return made[:16]

    def last_bundle(self):
        """Mostly clean up to its end: a jump to its own start by a short form or a word, ebreak, or what no region may end in."""
        ends = [struct.pack("<H", half) for half in (0x9002, 0xBFCD, 0x3FCD, 0x8082, 0x0001, 0xF86D)]
        ends += [struct.pack("<I", word) for word in (0xFF5FF06F, 0x00100073, 0x73, 0x13, 0xFE000AE3, 0x00008067)]
        end = self.pick.choice(ends)
        return b"\x01\0" * (8 - len(end) // 2) + end


def flipped(pick, data, most):
    """The data with 1 to `most` bits flipped."""
    changed = bytearray(data)
    for _ in range(pick.randint(1, most)):
        changed[pick.randrange(len(changed))] ^= 1 << pick.randrange(8)
    return bytes(changed)


def odd_bundle(pick, code, pieces, place):
    """A bundle of pieces, or an accepted one, or that with bits flipped, or any bytes."""
    choice = pick.random()
    if choice < 0.5:
        return pieces.bundle()
    if choice < 0.55:
        return pick.randbytes(16)
    accepted = code.bundle(pick.choice(images.KINDS), place)
    return accepted if choice < 0.75 else flipped(pick, accepted, 2)


def sandbox(pick, number, size, format, bundle_at):
    """A sandbox with gates in some places, whose other bundles are asked for by place."""
    base = 0x01000000 * (number + 1)
    gates = sorted(pick.sample(range(0, size, 16), pick.choice([0, 0, 1, 3])))
    bundles = [bundle_at(place) for place in range(0, size, 16)]
    if pick.random() < 0.5:
        bundles[-1] = Pieces(pick).last_bundle()
    for place in gates:
        bundles[place // 16] = pick.choice([STUB, STUB, STUB, flipped(pick, STUB, 1)])
    init = pick.choice([0, 0, 5])
    services = {base + place: pick.randrange(6) for place in gates}
    return Part(base, b"".join(bundles), base + 0x800000, 256, base, services, bytes(init))


def odd_image(seed, sandboxes, size, format):
    """An image with a right layout, of all sorts of bundles."""
    pick = random.Random(seed)
    code, pieces = images.Code(seed, size, format), Pieces(pick)
    made = [sandbox(pick, n, size, format, lambda place: odd_bundle(pick, code, pieces, place)) for n in range(sandboxes)]
    return spelled(images.MAGICS[format], made)


def accepted_image(pick, seed, format):
    """A small one, without gates."""
    return images.image(pick.choice(images.KINDS), pick.choice([1, 1, 2, 3]), pick.choice([256, 512]), pick.choice([0, 3]), format, seed)


def with_number(pick, data):
    """The same with another number in its front, the magic left out."""
    at = 4 * pick.randrange(1, 9)
    return data[:at] + struct.pack("<I", pick.choice(NUMBERS)) + data[at + 4 :]


def with_data_near(pick, data):
    """The same with the first sandbox's data, of 256 bytes, near the code of the first or second one, where guard zones may meet it."""
    code, apart = pick.choice([0x1000000, 0x2000000]), pick.choice([256, 4096 - 256, 4096, 4096 + 256, 4096 + 512])
    return data[:16] + struct.pack("<2I", pick.choice([code + apart, code - apart]), 256) + data[24:]


def with_large_data(pick, data):
    """The same with a large data region of the first sandbox, at a multiple of its size or not."""
    return data[:16] + struct.pack("<2I", *pick.choice(LARGE_DATA)) + data[24:]


def small_image(seed):
    """One image of few bundles: odd code, or accepted code with bits flipped, another number in its front, cut short, or made longer."""
    pick = random.Random(seed)
    format, choice = pick.choice([1, 2]), pick.random()
    if choice < 0.25:
        return odd_image(seed, pick.choice([1, 2]), 256, format)
    if choice < 0.28:
        return pick.randbytes(pick.randrange(300))
    if choice < 0.35:
        return with_data_near(pick, odd_image(seed, 2, 256, format))
    data = accepted_image(pick, seed, format) if choice < 0.8 else odd_image(seed, 2, 256, format)
    if choice < 0.6:
        return flipped(pick, data, 3)
    if choice < 0.7:
        return flipped(pick, data[:60], 2) + data[60:]
    if choice < 0.92:
        return with_number(pick, data)
    return data[: pick.randrange(len(data))] if choice < 0.97 else data + bytes(pick.choice([1, 2, 292]))
