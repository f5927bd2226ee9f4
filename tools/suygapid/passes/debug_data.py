"""The lines of a section of debug information as numbers, symbols and expressions of places (DWARF 4 and 5)."""
import re
from dataclasses import dataclass

SIZES = {".byte": 1, ".2byte": 2, ".half": 2, ".short": 2, ".4byte": 4, ".word": 4, ".long": 4, ".8byte": 8, ".quad": 8, ".dword": 8}
LEBS = (".uleb128", ".sleb128")  # numbers of 7 bits in each byte
STRINGS = {".string": 1, ".asciz": 1, ".ascii": 0}  # the bytes after the text
ESCAPES = {"\\b": "\b", "\\f": "\f", "\\n": "\n", "\\r": "\r", "\\t": "\t"}
CHARACTER = re.compile(r"\\[0-7]{1,3}|\\.|[^\\]")
REGISTERS, WITH_OFFSET, REGISTER_COUNT = 0x50, 0x70, 64  # DW_OP_reg0 to 31, and from DW_OP_breg0 on 32 more
# The operands of other operations: a digit for the bytes of one, L for a number of 7 bits in each byte, B and C for bytes after their
# count, which is such a number or one byte. What an entry value holds (0xa3, 0xf3) is of a function's beginning.
OPERANDS = {0x03: "4", 0x08: "1", 0x09: "1", 0x0a: "2", 0x0b: "2", 0x0c: "4", 0x0d: "4", 0x0e: "8", 0x0f: "8", 0x10: "L", 0x11: "L",
            0x15: "1", 0x23: "L", 0x28: "2", 0x2f: "2", 0x90: "L", 0x91: "L", 0x92: "LL", 0x93: "L", 0x94: "1", 0x9a: "4",
            0x9d: "LL", 0x9e: "B", 0xa0: "4L", 0xa3: "B", 0xa4: "LC", 0xa5: "LL", 0xa6: "1L", 0xa8: "L", 0xa9: "L", 0xf2: "4L",
            0xf3: "B", 0xf4: "LC", 0xf5: "LL", 0xf6: "1L", 0xf7: "L", 0xf9: "L", 0xfd: "4"}


class Unknown(Exception):
    """Debug information of a form that isn't known here."""


@dataclass(frozen=True)
class Atom:
    """What a line, of some number, has at one place: the bytes that it takes, a number or None, and its text."""
    line: int
    size: int
    value: int
    text: str


def value_of(text):
    try:
        return int(text, 0)
    except ValueError:
        return None


def byte_of(character):
    """The byte that a character of a string stands for; of two or more in UTF-8, one that isn't 0."""
    if character[1:2].isdigit():
        return int(character[1:], 8) & 255
    return ord(ESCAPES.get(character, character[-1])) & 255 or 1


def leb_size(value, is_signed):
    size = 1
    while not (-64 <= value < 64 if is_signed else value < 128):
        value, size = value >> 7, size + 1
    return size


def atoms_of(line, text):
    """What a line of data says."""
    word, _, rest = text.strip().partition("\t")
    if not rest:
        word, _, rest = text.strip().partition(" ")
    rest = rest.strip()
    if word in STRINGS:
        values = [*map(byte_of, CHARACTER.findall(rest[1:-1])), *[0] * STRINGS[word]]
        return [Atom(line, 1, value, rest) for value in values]
    if word == ".zero":
        return [Atom(line, 1, 0, rest)] * int(rest, 0)
    parts = [part.strip() for part in rest.split(",")]
    if word in SIZES:
        return [Atom(line, SIZES[word], value_of(part), part) for part in parts]
    if word in LEBS:
        return [Atom(line, 1 if value is None else leb_size(value, word == LEBS[1]), value, part)
                for part, value in zip(parts, map(value_of, parts))]
    raise Unknown(text)


@dataclass(frozen=True)
class Expression:
    """Where a variable is: the atom of the expression's length, and those of its operations."""
    length: Atom
    atoms: tuple

    def registers(self):
        """The registers that it names, as bits."""
        reader, found = Reader(self.atoms), 0
        while reader.goes_on():
            operation = reader.number()
            if REGISTERS <= operation < REGISTERS + REGISTER_COUNT:
                found |= 1 << (operation - REGISTERS) % 32
            for kind in OPERANDS.get(operation, "L" * (WITH_OFFSET <= operation < REGISTERS + REGISTER_COUNT)):
                reader.operand(kind)
        return found


class Reader:
    """Goes through a section."""

    def __init__(self, atoms):
        self.atoms, self.at = atoms, 0

    def goes_on(self):
        return self.at < len(self.atoms)

    def atom(self):
        if not self.goes_on():
            raise Unknown("a section that is cut off")
        self.at += 1
        return self.atoms[self.at - 1]

    def number(self):
        found = self.atom().value
        if found is None:
            raise Unknown(self.atoms[self.at - 1].text)
        return found

    def text(self):
        return self.atom().text

    def leb(self):
        """A number of 7 bits in each byte, None for a difference of symbols."""
        first = self.atom()
        if first.value is None or first.size > 1 or not 128 <= first.value < 256:
            return first.value
        found, shift, last = first.value & 127, 7, first.value
        while last >= 128:
            last = self.number()
            found, shift = found | (last & 127) << shift, shift + 7
        return found

    def skip(self, size):
        while size > 0:
            size -= self.atom().size
        if size:
            raise Unknown("a number that takes another room")

    def operand(self, kind):
        """Goes over an operand of an operation or an attribute's value."""
        if kind == "L":
            self.leb()
        elif kind in "BC":
            self.skip(self.leb() if kind == "B" else self.number())
        else:
            self.skip(int(kind))

    def string(self):
        while self.number():
            pass

    def lines_from(self, start):
        """The numbers of the lines from an atom on up to here."""
        return sorted({atom.line for atom in self.atoms[start:self.at]})

    def expression(self):
        """An expression after its length, which DWARF 4 has in two bytes."""
        length = self.atoms[self.at] if self.goes_on() else None
        size, start = self.number() if length and length.size == 2 else self.leb(), self.at
        self.skip(size)
        return Expression(length, tuple(self.atoms[start:self.at]))
