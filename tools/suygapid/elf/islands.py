"""Code in words that is larger than a jump reaches: `jal` leads 1 MiB back, and less than that forward.

A call or jump that leads farther goes by one or more others, its islands: `jal zero`, which changes no register. They lie between
functions, in gaps that the linker script leaves. A program is linked for the places of its functions, and then with gaps until these
have room, of copies of its objects whose jumps the linker leaves alone; they are set in what it makes last. What reaches is a jump as
ever, and a program in which all reach has no islands.
"""
import os
import re
import struct
from dataclasses import dataclass, field
from typing import Callable, Iterator, Sequence

from suygapid.elf.elf import ALLOCATED, Elf, Wrong
from suygapid.elf.image import code_size, most_of
from suygapid.image.layout import MOST_CODE
from suygapid.isa.encoding import jal

TOO_FAR = b"relocation truncated to fit: R_RISCV_JAL"  # what the linker says
REACH = 1 << 20
SPACING = 7 << 16  # bytes of code between two gaps, so that there are some in reach in each direction
WORD, ROOM, TRIALS = 4, 16, 10
NONE, JAL, RELOCATIONS = 0, 17, 4  # kinds of relocations: none, and that of a jump; and a kind of sections
JUMP = 0x6f  # the opcode of `jal`
CODE_LINE = "*(.text.unlikely .text.unlikely.*) *(.text .text.*)\n"  # of the linker script: where functions lie
INPUT = re.compile(r"^ (\.text\S*)\s+0x([0-9a-f]+)\s+0x([0-9a-f]+) (.+)$", re.M)  # a section, in the linker's map
MEMBER = re.compile(r"(.*)\(([^()]*)\)")


@dataclass(frozen=True)
class Input:
    """A section of code of an object, and where it lies."""
    name: str
    file: str
    address: int
    size: int

    def line(self) -> str:
        """Itself in a linker script."""
        member = None if os.path.exists(self.file) else MEMBER.fullmatch(self.file)
        return f'"{member[1]}:{member[2]}"({self.name})' if member else f'"{self.file}"({self.name})'


@dataclass
class Gap:
    """A place for islands before a section: how many have room, and the number of each by where it leads in the end."""
    before: Input
    address: int
    room: int = 0
    islands: dict[int, int] = field(default_factory=dict)

    def end(self) -> int:
        return self.address + WORD * self.room


ARCHIVE, MEMBER_HEADER, MEMBER_SIZE = b"!<arch>\n", 60, slice(48, 58)


def free_jumps(content: bytearray, begin: int) -> None:
    """Has the linker leave the jumps alone of an object that begins there in some bytes; what they name stays."""
    if content[begin:begin + 6] != b"\x7fELF\x01\x01":
        return
    (headers,), (size, count) = struct.unpack_from("<I", content, begin + 32), struct.unpack_from("<2H", content, begin + 46)
    for number in range(count):
        _, kind, _, _, at, length = struct.unpack_from("<6I", content, begin + headers + number * size)
        for place in range(begin + at + 4, begin + at + length, 12) if kind == RELOCATIONS else ():
            if content[place] == JAL:
                content[place] = NONE


def with_free_jumps(path: str) -> bytes:
    """The same of an object file or an archive."""
    with open(path, "rb") as file:
        content = bytearray(file.read())
    if not content.startswith(ARCHIVE):
        free_jumps(content, 0)
        return bytes(content)
    at = len(ARCHIVE)
    while at < len(content):
        free_jumps(content, at + MEMBER_HEADER)
        at += MEMBER_HEADER + int(content[at:at + MEMBER_HEADER][MEMBER_SIZE])
        at += at % 2
    return bytes(content)


def words_with_copies(words: Sequence[str], folder: str) -> list[str]:
    """The linker's words with copies of the objects and archives, so made, in a folder."""
    made, places = [], [word[2:] for word in words if word.startswith("-L")]
    for number, word in enumerate(words):
        named = [os.path.join(place, f"lib{word[2:]}.a") for place in places] if word.startswith("-l") else [word]
        path = next(filter(os.path.isfile, named), "")
        if path.endswith((".o", ".a")):
            word = os.path.join(folder, f"{number}-{os.path.basename(path)}")
            with open(word, "wb") as file:
                file.write(with_free_jumps(path))
        made.append(word)
    return made


def inputs_of(listing: str) -> list[Input]:
    """The sections of code that the linker's map lists, in their order."""
    placed = listing[listing.index("Linker script and memory map"):]
    found = [Input(name, file, int(address, 16), int(size, 16)) for name, address, size, file in INPUT.findall(placed)]
    return [it for it in found if it.size]


def gaps_of(inputs: Sequence[Input]) -> list[Gap]:
    """A gap before each section that ends too far behind the gap before it."""
    found, begin = [], inputs[0].address
    for it in inputs[1:]:
        if it.address + it.size - begin > SPACING:
            found.append(Gap(it, it.address))
            begin = it.address
    return found


def script_of(script: str, inputs: Sequence[Input], gaps: Sequence[Gap]) -> str:
    """The linker script with these sections in their order, and the gaps between them."""
    before = {gap.before: f". = ALIGN({WORD}); far.jumps.{number} = .; . += {WORD * gap.room};\n" for number, gap in enumerate(gaps)}
    lines = [before.get(it, "") + it.line() + "\n" for it in inputs]
    return script.replace(CODE_LINE, "".join(lines) + CODE_LINE)


def reaches(place: int, target: int) -> bool:
    return -REACH <= target - place < REACH


def jumps_of(elf: Elf) -> Iterator[tuple[int, int]]:
    """Where calls and jumps by name lie, and where they lead."""
    for header in elf.headers:
        if header[1] == RELOCATIONS and elf.headers[header[7]][2] & ALLOCATED:
            symbols = list(struct.iter_unpack("<3I2BH", elf.bytes_of(elf.headers[header[6]])))
            for place, about, added in struct.iter_unpack("<2Ii", elf.bytes_of(header)):
                if about & 255 == NONE and elf.content[elf.offset(place)] & 127 == JUMP:
                    yield place, symbols[about >> 8][1] + added


class Islands:
    """The islands of a program's jumps, in these gaps."""

    def __init__(self, elf: Elf, gaps: Sequence[Gap]) -> None:
        self.elf, self.gaps = elf, gaps
        self.steps: dict[int, int] = {}  # by the place of a jump or an island, where it leads
        waiting = list(jumps_of(elf))
        while waiting:
            place, target = waiting.pop()
            self.steps[place] = target if reaches(place, target) else self.island(place, target)
            if self.steps[place] != target and self.steps[place] not in self.steps:
                waiting.append((self.steps[place], target))

    def island(self, place: int, target: int) -> int:
        """The island in the gap from which it is least far to a target, of those that a jump reaches; it is made if it isn't there."""
        ways = [gap for gap in self.gaps if reaches(place, gap.address) and reaches(place, gap.end())
                and abs(target - gap.address) < abs(target - place)]
        if not ways:
            raise Wrong(f"{self.elf.name}: a jump of {self.named(place)} to {self.named(target)} doesn't reach, over a function too large: "
                        f"one may have nearly {REACH} bytes of code")
        gap = min(ways, key=lambda it: abs(target - it.address))
        return gap.address + WORD * gap.islands.setdefault(target, len(gap.islands))

    def named(self, address: int) -> str:
        return self.elf.named_at(address, self.elf.symbol("__sfi_code")) or f"{address:#x}"

    def set_in(self, elf: Elf) -> bytes:
        """The bytes of the linked file in which the jumps are set."""
        content = bytearray(elf.content)
        for place, target in self.steps.items():
            at = elf.offset(place)
            (word,) = struct.unpack_from("<I", content, at)
            is_jump = any(gap.address <= place < gap.end() for gap in self.gaps)
            struct.pack_into("<I", content, at, jal(target - place, 0 if is_jump else word >> 7 & 31))
        return bytes(content)


def with_room(gaps: Sequence[Gap]) -> bool:
    """Whether each gap has room for its islands. Those that don't are made larger; all are emptied if one was."""
    small = [gap for gap in gaps if gap.room < len(gap.islands)]
    for gap in small:
        gap.room = len(gap.islands) * 9 // 8 + ROOM
    for gap in gaps if small else ():
        gap.islands.clear()
    return not small


def linked(link: Callable[..., None], output: str, script: str, folder: str, name: str) -> None:
    """Writes a program that has jumps which don't reach: `link` runs the linker on the copies, with a script and further words. Where
    the code is larger than its format has room for, the program is as the linker leaves it: no image is made of it."""
    listing, changed = os.path.join(folder, "program.map"), os.path.join(folder, "islands.ld")
    link(script, "--emit-relocs", "-Map", listing)
    elf = Elf(output, name)
    if code_size(elf) > most_of(MOST_CODE, elf):
        return
    with open(listing, encoding="utf-8", errors="surrogateescape") as file:
        inputs = inputs_of(file.read())
    with open(script, encoding="utf-8") as file:
        text = file.read()
    gaps = gaps_of(inputs)
    for _ in range(TRIALS):
        islands = Islands(elf, gaps)
        if with_room(gaps):
            break
        with open(changed, "w", encoding="utf-8", errors="surrogateescape") as file:
            file.write(script_of(text, inputs, gaps))
        link(changed, "--emit-relocs")
        elf = Elf(output, name)
        for number, gap in enumerate(gaps):
            gap.address = elf.symbol(f"far.jumps.{number}")
    else:
        raise Wrong(f"{name}: {TRIALS} links found no places for the jumps that lead far")
    link(changed)
    content = islands.set_in(Elf(output, name))
    with open(output, "wb") as file:
        file.write(content)
