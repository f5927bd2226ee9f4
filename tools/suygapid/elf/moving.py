"""Makes a linked program one that can be moved: its code has each address relative to the base of a region, and a list of
the addresses in its data is linked with it, by which the program sets them right when it begins
(runtime/settle.c). The linker's relocations say where they are."""
import struct
from dataclasses import dataclass
from typing import Optional

from suygapid.elf.elf import ALLOCATED, Elf, Wrong
from suygapid.isa.encoding import r_type

MOVABLE = "__sfi_movable"  # a symbol that the linker script sees, and an image's tools
START = "_sfi_start_movable"  # in runtime/movable.s
KEEPING = ["--emit-relocs", f"--defsym={MOVABLE}=1"]  # the linker's options
SETTLING = ["-e", START]  # those of a program that has addresses in its data
OWN = 2  # addresses in the data of what sets the others right
RELOCATIONS, EXECUTABLE = 4, 4  # a section's kind, and its flag
ADDRESS, UPPER = 1, 26  # R_RISCV_32, R_RISCV_HI20
ABSOLUTE = 0xff00  # from here on no symbol is of a section
PAGE = 4096  # bases are multiples of it, so that the lower part of an address is that of its place in the region
WORD, CODE_BIT, FARTHEST = 4, 128, 127
MASKED = (2, 3, 4, 29)  # registers to which masks give the base, unless they are single
SINGLE = "__sfi_format_single"
BASES = {"code": 24, "data": 26}  # the registers that hold them


@dataclass(frozen=True)
class Relocation:
    """Where a linked program has a part of an address, of which kind, and in which region this is, None of a number."""
    place: int
    kind: int
    region: Optional[str]


class Moving:
    """A linked program, with what becomes of it."""

    def __init__(self, elf):
        self.elf, self.content = elf, bytearray(elf.content)
        self.bases = {"code": elf.symbol("__sfi_code"), "data": elf.symbol("__sfi_data")}
        for what, base in self.bases.items():
            if base % PAGE:
                raise Wrong(f"{elf.name}: it can be moved, and the {what} is linked at {base:#x}, which is no multiple of {PAGE}")
        self.relocations = list(self.read())

    def read(self):
        """The relocations of what is in memory."""
        for header in self.elf.headers:
            if header[1] == RELOCATIONS and self.elf.headers[header[7]][2] & ALLOCATED:
                table = self.elf.bytes_of(self.elf.headers[header[6]])
                sections = [section for *_, section in struct.iter_unpack("<3I2BH", table)]
                for place, about, _ in struct.iter_unpack("<2Ii", self.elf.bytes_of(header)):
                    yield Relocation(place, about & 255, self.region_of(sections[about >> 8]))

    def region_of(self, section):
        if not 0 < section < ABSOLUTE:
            return None
        return "code" if self.elf.headers[section][2] & EXECUTABLE else "data"

    def word(self, address):
        return struct.unpack_from("<I", self.content, self.elf.offset(address))[0]

    # The data.

    def addresses(self):
        """Where addresses are, and of which region, from the last to the first; but for the table of names."""
        named, end = self.elf.symbol("__sfi_exports"), self.elf.symbol("__sfi_names")
        return sorted(((it.place, it.region) for it in self.relocations
                       if it.kind == ADDRESS and it.region and not named <= it.place < end), reverse=True)

    def encoded(self):
        """The list: a byte for each address, and some more over long ways."""
        found, at = bytearray(), self.elf.symbol("__sfi_places")
        for place, region in self.addresses():
            if place % WORD:
                raise Wrong(f"{self.elf.name}: {self.elf.named_at(place, self.bases['data'])} has an address at {place:#x}, "
                            f"which is no multiple of {WORD}, so it can't be moved")
            steps, last = divmod((at - place) // WORD - 1, FARTHEST)
            found += bytes(steps) + bytes([last + 1 | CODE_BIT * (region == "code")])
            at = place
        return bytes(found)

    # The code.

    def make_relative(self, relocation):
        """Makes an address in the code, whose `lui` is given, relative to its region's base, which an `add` adds after it or
        after the `addi`."""
        place, upper = relocation.place, self.word(relocation.place)
        register = upper >> 7 & 31
        added = next((at for at in (place + WORD, place + 2 * WORD) if self.adds(at, register)), None)
        if added is not None:
            base = self.bases.get(relocation.region, 0)
            struct.pack_into("<I", self.content, self.elf.offset(place), (upper - base) % (1 << 32))
            self.set_base(added, register, BASES.get(relocation.region))
        elif relocation.region and (register not in MASKED or SINGLE in self.elf.symbols):
            raise Wrong(f"{self.elf.name}: the code at {place:#x} can't be moved: compile all of it with --movable")

    def adds(self, place, register):
        """Whether the data base is added to a register there."""
        word = self.word(place)
        return word == long_add(register, BASES["data"]) or word & 0xffff == short_add(register, BASES["data"])

    def set_base(self, place, register, base):
        """Has the sum there be that with a base, or a nop."""
        if self.word(place) & 3 == 3:
            struct.pack_into("<I", self.content, self.elf.offset(place), long_add(register, base or 0))
        else:
            struct.pack_into("<H", self.content, self.elf.offset(place), short_add(register, base) if base else 1)

    def made(self):
        """The program's bytes."""
        for relocation in self.relocations:
            if relocation.kind == UPPER:
                self.make_relative(relocation)
        first, end = self.elf.symbol("__sfi_places"), self.elf.symbol("__sfi_places_end")
        at = self.elf.offset(first) if first < end else 0
        if self.content[at:at + end - first] != self.encoded():
            raise Wrong(f"{self.elf.name}: the list of the addresses in its data isn't that of the first link")
        return bytes(self.content)


def long_add(register: int, base: int) -> int:
    return r_type(0, base, register, 0, register)


def short_add(register: int, base: int) -> int:
    return 0x9002 | register << 7 | base << 2


def is_movable(elf: Elf) -> bool:
    return MOVABLE in elf.symbols


def list_of(elf: Elf) -> Optional[str]:
    """The list as GNU assembly, for the next link; nothing where the program has no addresses but those two."""
    moving = Moving(elf)
    if len(moving.addresses()) == OWN:
        return None
    return '\t.section .sfi.places,"a",@progbits\n' + "".join(f"\t.byte {number}\n" for number in moving.encoded())


def made_movable(elf: Elf) -> bytes:
    return Moving(elf).made()
