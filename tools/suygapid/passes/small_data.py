"""The places of small objects, as the pass `known` asks for them. They are known to the linker alone, which puts them into the
first bytes of the data region. So each gets a number of its own here, beyond all offsets, and in the end the symbol's name
stands in its place."""
import re

FIRST = 1 << 20
ROOM = 1 << 16  # between two objects' numbers
SYMBOL = re.compile(r"([A-Za-z_.$][\w.$]*)([+-]\d+)?")
LARGEST = 64  # bytes of a small object, as the option -msmall-data-limit has it


def parts(text):
    """The name and the number of a symbol plus a number."""
    match = SYMBOL.fullmatch(text)
    return match.group(1), int(match.group(2) or 0)


def is_near(small, text):
    """Whether an address is that of one of these objects, or one not farther from it than an object's size."""
    name, addend = parts(text)
    return name in small and -LARGEST <= addend <= LARGEST


class SmallData:
    """The small objects of a file that its code speaks of."""
    farthest = 1 << 40  # the linker script sees to it that they lie in reach

    def __init__(self, unit, code):
        self.small = unit.near_small()
        self.offsets, self.numbers = {}, {}  # by an address, its offset; by an object, its number
        for piece in code:
            if piece.word == "la" and self.is_near(piece.operands[1]):
                name, addend = parts(piece.operands[1])
                self.offsets[piece.operands[1]] = self.offset(name, addend)

    def is_near(self, text):
        """Whether an address is that of a small object of this file."""
        return is_near(self.small, text)

    def offset(self, name, addend):
        number = self.numbers.setdefault(name, len(self.numbers))
        return FIRST + number * ROOM + ROOM // 2 + addend

    @staticmethod
    def holds(offset):
        """Whether an offset stands for a small object."""
        return offset >= FIRST

    def text(self, offset):
        """The offset in the region, as `as` takes it."""
        if not self.holds(offset):
            return str(offset)
        number, rest = divmod(offset - FIRST, ROOM)
        return f"%lo({list(self.numbers)[number]}{rest - ROOM // 2:+})"
