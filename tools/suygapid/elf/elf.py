"""Reads what an image needs of a linked ELF file of 32 bits: segments, sections and symbols."""
import struct
from dataclasses import dataclass
from typing import Iterator, NamedTuple, Optional

IMAGE = (b"SFI", b"534649")  # with which an image begins, as bytes and as text
LINKED = b"\x7fELF"
LOADED, EXECUTABLE = 1, 1  # a segment's kind, and its flag
ALLOCATED = 2  # a section's flag: it has room in memory
SYMBOLS = 2  # a section's kind
NOTHING, OBJECT, FUNCTION = 0, 1, 2  # kinds of a symbol


class Wrong(Exception):
    """What is wrong with a file, in one line."""


class Symbol(NamedTuple):
    name: str
    value: int
    size: int
    kind: int  # OBJECT, FUNCTION or another


@dataclass(frozen=True)
class Segment:
    address: int
    content: bytes
    size: int  # in memory: the content, and then zeros
    is_code: bool


class Elf:
    """A linked file, and how it is told: by its path if no other name is given."""

    def __init__(self, path: str, name: Optional[str] = None) -> None:
        with open(path, "rb") as file:
            self.content = file.read()
        self.path, self.name = path, name or path
        path = self.name
        if self.content.lstrip().startswith(IMAGE):
            raise Wrong(f"{path} is an image, which `sfi exec` runs, and no program that sfi-cc linked (-o PROGRAM.elf)")
        if self.content[:6] != LINKED + b"\x01\x01" or self.content[16:20] != b"\x02\x00\xf3\x00":
            raise Wrong(f"{path} is no linked ELF file of 32-bit RISC-V")
        try:
            self.entry, segments, sections = struct.unpack_from("<3I", self.content, 24)
            size, count, header, headers, self.names = struct.unpack_from("<5H", self.content, 42)
            self.segments = [self.segment(segments + number * size) for number in range(count)]
            self.headers = [struct.unpack_from("<10I", self.content, sections + number * header) for number in range(headers)]
            self.table = list(self.read_symbols())
            self.symbols = {symbol.name: symbol.value for symbol in self.table}
        except (struct.error, IndexError, ValueError) as error:
            raise Wrong(f"{path} is cut off, or no ELF file") from error

    def segment(self, at: int) -> tuple[int, Segment]:
        kind, offset, address, _, stored, size, flags, _ = struct.unpack_from("<8I", self.content, at)
        return kind, Segment(address, self.content[offset:offset + stored], size, bool(flags & EXECUTABLE))

    def loaded(self) -> list[Segment]:
        """The segments that have bytes in memory."""
        return [segment for kind, segment in self.segments if kind == LOADED and segment.size]

    def text(self, section: int, offset: int) -> str:
        """A name of a section of names."""
        start = self.headers[section][4] + offset
        return self.content[start:self.content.index(b"\0", start)].decode("utf-8", "replace")

    def bytes_of(self, header: tuple[int, ...]) -> bytes:
        return self.content[header[4]:header[4] + header[5]]

    def offset(self, address: int) -> int:
        """Where an address is in the file."""
        header = next(it for it in self.headers if it[2] & ALLOCATED and it[3] <= address < it[3] + it[5])
        return header[4] + address - header[3]

    def section(self, name: str) -> bytes:
        """A section's bytes, none where it isn't there."""
        found = [header for header in self.headers if self.text(self.names, header[0]) == name]
        return self.bytes_of(found[0]) if found else b""

    def read_symbols(self) -> Iterator[Symbol]:
        for header in self.headers:
            if header[1] == SYMBOLS:
                for name, value, size, kind, _, section in struct.iter_unpack("<3I2BH", self.bytes_of(header)):
                    if section:
                        yield Symbol(self.text(header[6], name), value, size, kind & 15)

    def symbol(self, name: str) -> int:
        if name not in self.symbols:
            raise Wrong(f"{self.name} has no symbol {name}: link it by tools/sfi-cc, and leave its symbols there")
        return self.symbols[name]

    def function_at(self, address: int) -> str:
        return next((name for name, value in self.symbols.items() if value == address), f"{address:#x}")

    def named(self) -> list[Symbol]:
        """The symbols of functions and objects, with labels of assembly."""
        return [symbol for symbol in self.table
                if symbol.kind in (NOTHING, OBJECT, FUNCTION) and symbol.name and not symbol.name.startswith((".", "$", "__sfi_"))]

    def named_at(self, address: int, base: int) -> str:
        """The name of the function or object that an address belongs to, of those from a base on, or nothing."""
        found = [symbol for symbol in self.named() if base <= symbol.value <= address]
        last = max(found, key=lambda symbol: symbol.value, default=None)
        return last.name if last else ""

    def gates(self) -> dict[int, int]:
        """The address and the service of each gate's stub."""
        return {at: service for at, service in sorted(struct.iter_unpack("<2I", self.section(".sfi.gates")))}
