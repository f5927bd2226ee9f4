"""Object files of 32-bit RISC-V: sections, symbols and relocations, as the System V ABI and the RISC-V psABI lay them out."""
import struct
from dataclasses import dataclass, field

SYMBOLS, RELOCATIONS, NO_BITS = 2, 4, 8  # types of sections
ALLOCATED, EXECUTABLE = 2, 4  # flags of sections
COMMON = 0xfff2
LOCAL, GLOBAL, WEAK = range(3)
RELOCATION_NAMES = {1: "word", 16: "branch", 17: "jal", 18: "call", 19: "call", 20: "got", 23: "pcrel_hi", 24: "pcrel_lo",
                    25: "pcrel_lo", 26: "hi", 27: "lo", 28: "lo", 44: "rvc_branch", 45: "rvc_jump"}


class NotAnObject(Exception):
    """A file that is no object of 32-bit RISC-V."""


@dataclass(frozen=True)
class Symbol:
    """A name, the section where it's defined, or None, its place there, and how files share it."""
    name: str
    section: str
    value: int
    size: int
    binding: int
    common: bool = False


@dataclass(frozen=True)
class Relocation:
    kind: str
    symbol: Symbol
    addend: int


@dataclass
class Section:
    name: str
    kind: int
    flags: int
    size: int
    content: bytes
    relocations: dict = field(default_factory=dict)  # by place, those that stand there

    def is_code(self):
        return bool(self.flags & EXECUTABLE)

    def is_data(self):
        return bool(self.flags & ALLOCATED) and not self.is_code()


def text_at(content, place):
    return content[place:content.index(b"\0", place)].decode("utf-8", "surrogateescape")


class ObjectFile:
    """The sections of an object file by their names, and its symbols."""

    def __init__(self, content):
        if content[:6] != b"\x7fELF\1\1" or content[16:20] != b"\1\0\xf3\0":
            raise NotAnObject("no object file of 32-bit RISC-V")
        self.content = content
        (offset,), (size, count, names) = struct.unpack_from("<I", content, 32), struct.unpack_from("<3H", content, 46)
        self.headers = [struct.unpack_from("<10I", content, offset + size * number) for number in range(count)]
        name_table = self.bytes_of(self.headers[names])
        self.names = [text_at(name_table, header[0]) for header in self.headers]
        self.sections = {name: Section(name, header[1], header[2], header[5], self.bytes_of(header))
                         for name, header in zip(self.names, self.headers)}
        self.symbols = self.read_symbols()
        self.named = {symbol.name: symbol for symbol in self.symbols if symbol.name}
        for header in self.headers:
            if header[1] == RELOCATIONS:
                self.read_relocations(header)

    def bytes_of(self, header):
        return b"" if header[1] == NO_BITS else self.content[header[4]:header[4] + header[5]]

    def read_symbols(self):
        found = []
        for header in self.headers:
            if header[1] == SYMBOLS:
                texts = self.bytes_of(self.headers[header[6]])
                for name, value, size, info, _, index in struct.iter_unpack("<IIIBBH", self.bytes_of(header)):
                    section = self.names[index] if 0 < index < len(self.names) else None
                    text = section if info & 15 == 3 else text_at(texts, name)
                    found.append(Symbol(text, section, value, size, info >> 4, index == COMMON))
        return found

    def read_relocations(self, header):
        target = self.sections[self.names[header[7]]]
        for place, info, addend in struct.iter_unpack("<IIi", self.bytes_of(header)):
            kind = RELOCATION_NAMES.get(info & 255, f"number {info & 255}")
            target.relocations.setdefault(place, []).append(Relocation(kind, self.symbols[info >> 8], addend))
