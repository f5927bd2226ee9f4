"""Says what lies at an address of the image that is made of a linked program: the function and the line of an instruction, the
object of a place in the data, the stack's room, a guard zone, or the zone at zero."""
from typing import Iterable, Iterator, Sequence

from suygapid.elf.elf import Elf
from suygapid.elf.image import memory_of, number_of
from suygapid.elf.tools import addresses_told
from suygapid.image.layout import GUARD, zones_of

UNKNOWN = "?"  # what addr2line says of a line that nothing tells


def lines_of(program: Elf, addresses: Iterable[int]) -> Iterator[str]:
    """The file and line of C of each address, as FILE:LINE, or nothing where that isn't known."""
    for said in addresses_told(program.path, addresses):
        place = said.split(" ")[0].rsplit("/", maxsplit=1)[-1]
        yield "" if UNKNOWN in place or place.endswith(":0") else place


class Where:
    """Where all of a sandbox lies."""

    def __init__(self, program: Elf) -> None:
        self.program = program
        self.code, self.data = program.symbol("__sfi_code"), program.symbol("__sfi_data")
        self.memory = memory_of(program)
        self.zones = zones_of(number_of(program), self.memory.size)
        self.end = max(segment.address + len(segment.content) for segment in program.loaded() if segment.is_code)

    def told(self, address: int, line: str) -> str:
        """What lies at an address, whose line of C is given."""
        if self.code <= address < self.end:
            name = self.program.named_at(address, self.code)
            return f"{name}, {line}" if line else name
        below = address - self.data
        if 0 <= below < self.memory.objects:
            return self.told_of_object(address)
        if 0 <= below < self.memory.size:
            return self.told_of_rest(below - self.memory.objects)
        if -GUARD <= below < 0:
            return self.told_of_guard(f"{-below} bytes below")
        if self.memory.size <= below < self.memory.size + GUARD:
            return self.told_of_guard(f"{below - self.memory.size + 1} bytes above")
        if any(begin <= address < end for begin, end in self.zones):
            return "in the zone at zero: a pointer is null or wrong"
        return "neither the program's code nor its data"

    def told_of_object(self, address):
        name = self.program.named_at(address, self.data)
        found = f"byte {address - self.program.symbols[name]} of {name}" if name else "in no object"
        return f"{found}; where this is the stack pointer, {self.overflow('has')}"

    def told_of_rest(self, below):
        if self.memory.heap:
            return f"in the memory of heap and stack, {below} bytes behind the objects"
        return f"in the stack's room of {self.memory.stack} bytes, {below} of them below it"

    def told_of_guard(self, where):
        return f"in the guard zone, {where} the data: {self.overflow('has likely')}, or a pointer is wrong"

    def overflow(self, has):
        beside = " beside the heap" * bool(self.memory.heap)
        return f"the stack {has} overflowed its room of {self.memory.stack} bytes{beside} (--stack gives more)"


def told(program: Elf, addresses: Sequence[int]) -> bytes:
    """A line for each address."""
    where = Where(program)
    lines = lines_of(program, addresses)
    return "".join(f"{address:08x}: {where.told(address, line)}\n" for address, line in zip(addresses, lines)).encode()
