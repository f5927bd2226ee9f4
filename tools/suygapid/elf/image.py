"""From linked ELF files to an image. docs/IMAGE.md has the format. Nothing here is trusted: `sfi check` reads the image."""
import struct
from dataclasses import dataclass, replace
from itertools import accumulate, permutations, zip_longest
from typing import Iterable, Optional, Sequence

from suygapid.elf.elf import Elf, Wrong
from suygapid.elf.moving import is_movable
from suygapid.image.layout import (
    ADDRESSES, FORMATS, GUARD, MOST_CODE, MOST_DATA, MOST_SANDBOXES, NAMED, SINGLE, Part, are_apart, is_one_bit, spelled)
from suygapid.image.names import footer, moved_names
from suygapid.passes.typed import WORDS

SMALLEST = 256  # bytes of a region
DEFAULT_STACK, DEFAULT_HEAP = 8192, 98304
DEFAULT_MEMORY = 16 << 20  # bytes of the data region of a program with a heap in code in words: linking.py says which
HEAP_SIZE = "__heap_size"  # holds what the heap may give out, in programs that have one: runtime/heap.c
TAKING = {"__heap_more", "__heap_take"}  # what takes memory of it: runtime/heap.c, and with --debug heap_checks.c
UNITS = {"K": 1 << 10, "M": 1 << 20, "G": 1 << 30}  # of sizes that options give
TOP = 16  # the first stack pointer lies so far below the data's end
ROUNDED = 2048  # %hi of an address so near a multiple of 4096, or nearer, is that multiple
Place = tuple[int, int]  # where code and data begin
OTHER = f"compile it with --format {WORDS}"  # what is said of a place that single masks have not
BREAK = b"\x02\x90"  # c.ebreak fills the code up


@dataclass(frozen=True)
class Frame:
    function: str
    size: int


@dataclass(frozen=True)
class Memory:
    """The bytes of the data region, of the objects at its beginning, and of the heap behind these at most; the rest is the stack's,
    and so is what the heap hasn't given out."""
    size: int
    objects: int
    heap: int

    @property
    def stack(self) -> int:
        return self.size - self.objects - self.heap - TOP


def spelled_size(size: int) -> str:
    """A number of bytes as options take it."""
    units = [unit for unit in UNITS if size and size % UNITS[unit] == 0]
    return f"{size // UNITS[units[-1]]}{units[-1]}" if units else str(size)


def power(count: int) -> int:
    """The least size of a region that has room for `count` bytes."""
    return max(SMALLEST, 1 << max(count - 1, 0).bit_length())


def format_of(elf: Elf) -> str:
    found = [name for name in NAMED if f"__sfi_format_{name}" in elf.symbols]
    if len(found) != 1:
        raise Wrong(f"{elf.name} isn't code for a sandbox in one format: link it by tools/sfi-cc")
    return found[0]


def number_of(elf: Elf) -> int:
    return FORMATS[NAMED[format_of(elf)]]


def deepest_frame(elf: Elf) -> Frame:
    """The largest frame of a function that the linker kept; others have an address below the code."""
    frames = [(size, address) for address, size in struct.iter_unpack("<2I", elf.section(".debug_sfi_frames"))
              if address >= elf.symbol("__sfi_code")]
    size, address = max(frames, default=(0, 0))
    return Frame(elf.function_at(address), size)


def most_of(mosts: dict[int, int], elf: Elf) -> int:
    """The most bytes of a region in the format of a program."""
    return mosts[number_of(elf)]


def code_size(elf: Elf) -> int:
    """The bytes of the code region."""
    return power(sum(len(segment.content) for segment in elf.loaded() if segment.is_code))


def code_of(elf: Elf) -> bytes:
    """The code region's bytes."""
    text = b"".join(segment.content for segment in elf.loaded() if segment.is_code)
    most = most_of(MOST_CODE, elf)
    if len(text) > most:
        raise Wrong(f"{elf.name}: the code has {len(text)} bytes, {len(text) - most} more than format {format_of(elf)} has room for (at most {most})")
    return text + BREAK * ((code_size(elf) - len(text)) // 2)


def used_by(elf: Elf) -> int:
    """The bytes of the data region up to the objects' end."""
    used = elf.symbol("__sfi_end") - elf.symbol("__sfi_data")
    if used < 0:
        raise Wrong(f"{elf.name}: the data end below their beginning: link it by tools/sfi-cc")
    most = most_of(MOST_DATA, elf)
    if used > most:
        raise Wrong(f"{elf.name}: the objects have {used} bytes, {used - most} more than format {format_of(elf)} has room for (at most {most})")
    return used


def stack_of(elf: Elf, stack: Optional[int]) -> int:
    """The bytes of the stack: those that are wanted, or that the program was linked with."""
    return elf.symbols.get("__sfi_stack", DEFAULT_STACK) if stack is None else stack


def data_of(elf: Elf, stack: int, memory: Memory) -> bytes:
    """The first bytes of the data region, up to the last that isn't zero."""
    base, data = elf.symbol("__sfi_data"), [segment for segment in elf.loaded() if not segment.is_code]
    ends = [segment.address + len(segment.content) for segment in data]
    content = bytearray(min(max([elf.symbol("__sfi_names_end"), *ends]) - base, memory.objects))
    for segment in data:
        start = segment.address - base
        if not 0 <= start <= start + len(segment.content) <= memory.objects:
            raise Wrong(f"{elf.name}: bytes at {segment.address:#x} lie outside the data: link it by tools/sfi-cc")
        content[start:start + len(segment.content)] = segment.content
    at, table_end = footer(elf, stack)
    content[at - base:at - base + len(table_end)] = table_end
    if HEAP_SIZE in elf.symbols:
        struct.pack_into("<I", content, elf.symbols[HEAP_SIZE] - base, memory.heap)
    return bytes(content).rstrip(b"\0")


def least_heap(elf: Elf, is_sized: bool) -> int:
    """The bytes that the heap has to have, where there is one: as an option says, or, if none says the region's size, the library."""
    if HEAP_SIZE not in elf.symbols:
        return 0
    return elf.symbols.get("__sfi_heap", 0 if is_sized else elf.symbols.get("__sfi_heap_least", DEFAULT_HEAP))


def listed(counts: dict[str, int], unit: str = "") -> str:
    """How many bytes what has, as words."""
    first, *others = (f"{count} of {what}" for what, count in counts.items() if count)
    words = [first.replace(" ", unit + " ", 1), *others]
    return " and ".join([*filter(None, [", ".join(words[:-1])]), words[-1]])


def least_size(elf: Elf, counts: dict[str, int], above: int) -> int:
    """The bytes that what has so many needs. Where masks of data are single, none of what `lui` leaves of an object's address, or of
    a base above it, may be the region's end, which isn't masked into the region's other end."""
    reach = counts["objects"] + above - TOP
    rounded = reach + ROUNDED if number_of(elf) == SINGLE and reach > ROUNDED else 0
    return power(max(sum(counts.values()) + above, rounded))


def check_room(elf: Elf, size: int, counts: dict[str, int], above: int) -> None:
    """Whether objects, stack and heap of so many bytes, in this order, fit in the region, below what lies above the stack."""
    largest, needed = most_of(MOST_DATA, elf), sum(counts.values()) + above
    most = min(size, largest)
    if needed <= most:
        return
    ends = accumulate(counts.values(), initial=above)
    lacking = {what: max(0, min(count, end + count - most)) for (what, count), end in zip(counts.items(), ends)}
    more = f"--memory {spelled_size(power(needed))} gives more" if power(needed) <= largest else f"format {format_of(elf)} has room for no more"
    raise Wrong(f"{elf.name}: {listed(counts, ' bytes')} don't fit in {most}, by {listed(lacking)}: {more}")


def wanted_of(elf: Elf, wanted: Optional[int]) -> Optional[int]:
    """The size that is wanted for the data region, or with which the program was linked, if any."""
    wanted, most = wanted or elf.symbols.get("__sfi_memory"), most_of(MOST_DATA, elf)
    if wanted and wanted > most:
        raise Wrong(f"{elf.name}: --memory {spelled_size(wanted)} is more than format {format_of(elf)} has room for (at most {spelled_size(most)})")
    return wanted


def above_stack(elf: Elf) -> int:
    """The bytes between the first stack pointer and the data region's end."""
    return elf.symbol("__sfi_above") + TOP


def counts_of(elf: Elf, stack: Optional[int], wanted: Optional[int]) -> dict[str, int]:
    """The bytes that what lies in the data region has at least, in that order."""
    return {"objects": used_by(elf), "stack": stack_of(elf, stack), "heap": least_heap(elf, wanted is not None)}


def least_memory(elf: Elf) -> int:
    """The bytes that the data region has at least, where no option says its size: more than it takes, as the program was linked, if
    malloc may have all."""
    has_all = TAKING & elf.symbols.keys() and "__sfi_heap" not in elf.symbols
    return elf.symbols.get("__sfi_memory_least", SMALLEST) if has_all else SMALLEST


def memory_size(elf: Elf, stack: Optional[int] = None, wanted: Optional[int] = None) -> int:
    """The bytes of the data region: as many as are wanted, or the least that have room for all."""
    wanted = wanted_of(elf, wanted)
    counts, above = counts_of(elf, stack, wanted), above_stack(elf)
    least = least_size(elf, counts, above)
    size = wanted or max(least, least_memory(elf))
    check_room(elf, size, counts, above)
    if size < least:
        raise Wrong(f"{elf.name}: objects reach into the last {ROUNDED} bytes of {size}, where format single has none: "
                    f"--memory {spelled_size(least)} gives more")
    return size


def memory_of(elf: Elf, stack: Optional[int] = None, wanted: Optional[int] = None) -> Memory:
    """How the data region is shared."""
    size = memory_size(elf, stack, wanted)
    objects, stack, heap = counts_of(elf, stack, wanted_of(elf, wanted)).values()
    base = elf.symbol("__sfi_data")
    if base % size:
        raise Wrong(f"{elf.name}: the data have {size} bytes, and lie at {base:#x}, which is no multiple of that: "
                    f"link it with --memory {spelled_size(size)}, or another --at")
    frame, room = deepest_frame(elf), size - objects - above_stack(elf)
    if frame.size > room - heap:
        raise Wrong(f"{elf.name}: the frame of {frame.function} has {frame.size} bytes, and the stack has room for {room - heap}: "
                    f"give --stack {frame.size + TOP} or more")
    most = elf.symbols.get("__sfi_heap", size) if HEAP_SIZE in elf.symbols else 0
    return Memory(size, objects, min(most, room - max(stack, frame.size)))


@dataclass
class Sandbox(Part):
    """A sandbox, and how it is told."""
    path: str = ""

    def check_place(self) -> None:
        for what, base, size in (("code", self.code_base, len(self.code)), ("data", self.data_base, self.data_size)):
            if base % size:
                raise Wrong(f"{self.path}: the {what} has {size} bytes, and lies at {base:#x}, which is no multiple of that")
        if not GUARD <= self.data_base <= ADDRESSES - self.data_size - GUARD:
            raise Wrong(f"{self.path}: there is no room for a guard zone beside the data at {self.data_base:#x}")
        if self.format == SINGLE and not is_one_bit(self.data_base):
            raise Wrong(f"{self.path}: the data lie at {self.data_base:#x}, which is more than one bit: {OTHER}")
        if self.is_in_own_zone():
            raise Wrong(f"{self.path}: the code or the data lie in the zone at zero, the addresses below {self.data_size + GUARD:#x} and the last "
                        f"{GUARD}: give less --memory, or {OTHER}")

    def moved(self, code_base: int, data_base: int) -> "Sandbox":
        """The same at another place: the code stays as it is, and of the data the addresses in the table of names change."""
        in_code = range(self.code_base, self.code_base + len(self.code))
        in_data = range(self.data_base, self.data_base + self.data_size)

        def there(address: int) -> int:
            if address in in_code:
                return address - self.code_base + code_base
            return address - self.data_base + data_base if address in in_data else address

        made = replace(self, code_base=code_base, data_base=data_base, start=there(self.start),
                       gates={there(at): service for at, service in self.gates.items()}, init=moved_names(self.init, there))
        made.check_place()
        return made


def sandbox_of(elf: Elf, stack: Optional[int], wanted: Optional[int]) -> Sandbox:
    memory = memory_of(elf, stack, wanted)
    made = Sandbox(elf.symbol("__sfi_code"), code_of(elf), elf.symbol("__sfi_data"), memory.size,
                   elf.entry, elf.gates(), data_of(elf, stack_of(elf, stack), memory), number_of(elf), path=elf.name)
    made.check_place()
    return made


def at_place(elf: Elf, made: Sandbox, where: Optional[Place]) -> Sandbox:
    """A program's sandbox at another place, if it is one that can be moved."""
    if where is None or where == (made.code_base, made.data_base):
        return made
    if not is_movable(elf):
        raise Wrong(f"{elf.name} can't be moved: link it with --movable, or with --at")
    return made.moved(*where)


def check_apart(sandboxes: Iterable[Sandbox]) -> None:
    sandboxes = list(sandboxes)
    spans = sorted((*span, made.path) for made in sandboxes for span in made.spans(GUARD))
    for (_, end, first), (start, _, second) in zip(spans, spans[1:]):
        if start < end:
            raise Wrong(f"{first} and {second} lie at one place: link each with a --sandbox of its own")
    for one, other in permutations(sandboxes, 2):
        if not all(are_apart(span, zone) for span in one.spans(GUARD) for zone in other.zones()):
            raise Wrong(f"{one.path} lies in the zone at zero of {other.path}: give {other.path} less --memory")


def image(elfs: Sequence[Elf], stack: Optional[int] = None, wanted: Optional[int] = None, places: Iterable[Place] = ()) -> bytes:
    """The image of some ELF files, each a sandbox, in their order, the first ones at these places."""
    if len(elfs) > MOST_SANDBOXES:
        raise Wrong(f"{len(elfs)} sandboxes, and an image has {MOST_SANDBOXES} at most")
    formats = {format_of(elf): elf.name for elf in elfs}
    if len(formats) > 1:
        raise Wrong(f"{' and '.join(formats.values())} are of different formats")
    sandboxes = [at_place(elf, sandbox_of(elf, stack, wanted), where) for elf, where in zip_longest(elfs, places)]
    check_apart(sandboxes)
    return spelled(NAMED[format_of(elfs[0])], sandboxes)


def as_text(made: bytes) -> bytes:
    """An image as the program sfi reads it."""
    return made.hex().encode() + b"\n"
