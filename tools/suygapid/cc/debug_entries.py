"""Reads the entries of the debug information (DWARF 4) in an object file of one source: a tree, each entry with its kind and
the values of its attributes."""
import struct
from dataclasses import dataclass, field

NAME, SIZE, LANGUAGE, PROTOTYPED, ORIGIN, DECLARED, ENCODING, EXTERNAL, SPECIFICATION, TYPE, LINKAGE_NAME = (
    0x03, 0x0b, 0x13, 0x27, 0x31, 0x3c, 0x3e, 0x3f, 0x47, 0x49, 0x6e)  # attributes
CONSTANT = 0x1c
PARAMETER, SUBROUTINE, MORE_PARAMETERS, SUBPROGRAM, VARIABLE, NAMESPACE = 0x05, 0x15, 0x18, 0x2e, 0x34, 0x39  # kinds of entries
ENUMERATION, POINTER, REFERENCE, TYPEDEF, BASE, CONST, VOLATILE, RESTRICT, RVALUE, ATOMIC = (
    0x04, 0x0f, 0x10, 0x16, 0x24, 0x26, 0x35, 0x37, 0x42, 0x47)
# The forms of values: so many bytes; a block after its length in so many bytes; and others.
FIXED = {0x01: 4, 0x05: 2, 0x06: 4, 0x07: 8, 0x0b: 1, 0x0c: 1, 0x11: 1, 0x12: 2, 0x13: 4, 0x14: 8, 0x17: 4, 0x20: 8}
BLOCKS = {0x03: 2, 0x04: 4, 0x0a: 1}
STRING, BLOCK, SIGNED, STRING_AT, UNSIGNED, UNSIGNED_REFERENCE, EXPRESSION, PRESENT = 0x08, 0x09, 0x0d, 0x0e, 0x0f, 0x15, 0x18, 0x19
HEADER = 11  # bytes before the first entry
SYMBOL_SIZE, RELOCATION_SIZE, ADDRESS = 16, 12, 1  # in an object, and the kind of a relocation that is R_RISCV_32


class Unknown(Exception):
    """What isn't known of an object."""


@dataclass
class Entry:
    kind: int
    values: dict
    children: list = field(default_factory=list)


class Sections:
    """The sections of an object by their names, and where those of debug information speak of a place in another."""

    def __init__(self, content):
        (start,), (size, count, names) = struct.unpack_from("<I", content, 32), struct.unpack_from("<3H", content, 46)
        headers = [struct.unpack_from("<10I", content, start + number * size) for number in range(count)]
        bytes_of = [content[header[4]:header[4] + header[5]] for header in headers]
        named = [text_at(bytes_of[names], header[0]) for header in headers]
        self.content = dict(zip(named, bytes_of))
        self.places = {}  # by the place in .debug_info, the place that is meant
        if ".rela.debug_info" in self.content:
            symbols = bytes_of[headers[named.index(".rela.debug_info")][6]]
            for place, about, addend in struct.iter_unpack("<2Ii", self.content[".rela.debug_info"]):
                if about & 255 == ADDRESS:
                    self.places[place] = struct.unpack_from("<I", symbols, (about >> 8) * SYMBOL_SIZE + 4)[0] + addend


def text_at(content, at):
    return content[at:content.index(b"\0", at)].decode("utf-8", "replace")


class Bytes:
    """Takes numbers one after another."""

    def __init__(self, content, at=0):
        self.content, self.at = content, at

    def number(self, size):
        self.at += size
        return int.from_bytes(self.content[self.at - size:self.at], "little")

    def leb(self, is_signed=False):
        """A number of 7 bits in each byte."""
        found, shift = 0, 0
        while True:
            byte = self.content[self.at]
            self.at, found, shift = self.at + 1, found | (byte & 127) << shift, shift + 7
            if byte < 128:
                return found - (1 << shift) if is_signed and byte & 64 else found

    def text(self):
        found = text_at(self.content, self.at)
        self.at = self.content.index(b"\0", self.at) + 1
        return found


def abbreviations(content):
    """By its code, an entry's kind, whether others stand in it, and its attributes with their forms."""
    reader, table = Bytes(content), {}
    while code := reader.leb():
        kind, has_children, attributes = reader.leb(), reader.number(1), []
        while (pair := (reader.leb(), reader.leb())) != (0, 0):
            attributes.append(pair)
        table[code] = kind, bool(has_children), attributes
    return table


class Entries:
    """The entries of an object, by the places at which others refer to them."""

    def __init__(self, content):
        try:
            sections = Sections(content)
            self.strings, self.places = sections.content.get(".debug_str", b""), sections.places
            self.reader = Bytes(sections.content[".debug_info"], HEADER)
            if int.from_bytes(self.reader.content[4:6], "little") != 4:
                raise Unknown("another version than 4")
            self.by_place = {}
            self.unit = self.read(abbreviations(sections.content[".debug_abbrev"]))
        except (KeyError, IndexError, ValueError, struct.error) as error:
            raise Unknown(f"debug information that can't be read: {error}") from error

    def read(self, table):
        """The outermost entry, with all that stand in it."""
        first, open_ones = None, []
        while first is None or open_ones:
            at = self.reader.at
            code = self.reader.leb()
            if not code:
                open_ones.pop()
                continue
            kind, has_children, attributes = table[code]
            entry = Entry(kind, {attribute: self.value(form) for attribute, form in attributes})
            self.by_place[at] = entry
            if open_ones:
                open_ones[-1].children.append(entry)
            first = first or entry
            if has_children:
                open_ones.append(entry)
        return first

    def value(self, form):
        """A number or a text; None for a block of bytes."""
        reader = self.reader
        if form in FIXED:
            return reader.number(FIXED[form])
        if form in (UNSIGNED, UNSIGNED_REFERENCE, SIGNED):
            return reader.leb(form == SIGNED)
        if form == PRESENT:
            return True
        if form == STRING_AT:
            place = self.places.get(reader.at)
            offset = reader.number(4)
            return text_at(self.strings, offset if place is None else place)
        if form == STRING:
            return reader.text()
        if form in BLOCKS or form in (BLOCK, EXPRESSION):
            size = reader.number(BLOCKS[form]) if form in BLOCKS else reader.leb()
            reader.at += size
            return None
        raise Unknown(f"a value of form {form:#x}")

    def of(self, entry, attribute):
        """The entry to which an attribute refers, None where there is none."""
        place = entry.values.get(attribute)
        return None if place is None else self.by_place[place]
