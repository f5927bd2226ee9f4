"""The layout of an image, read and written by docs/IMAGE.md, apart from the proved reader and writer.

It is untrusted: nothing is proved of it. `fuzz/commands.py` and `fuzz/mutants.py` compare the program with it.
"""
import dataclasses
import struct
from typing import Callable, Iterable

from suygapid import services

WORDS, SINGLE = 3, 4  # the formats of code in words: with masks of data of two steps, and with single ones
FORMATS = {b"SFI1": 1, b"SFI2": 2, b"SFIW": WORDS, b"SFIS": SINGLE}
MAGICS = {number: magic for magic, number in FORMATS.items()}
NAMED = {"1": b"SFI1", "2": b"SFI2", "words": b"SFIW", "single": b"SFIS"}  # as options name them
MOST_CODE = {1: 65536, 2: 1048576, 3: 16777216, 4: 16777216}  # bytes of a region, by the format
MOST_DATA = {1: 1048576, 2: 1048576, 3: 1073741824, 4: 1073741824}
GUARD, MOST_GATES, MOST_SANDBOXES = 4096, 64, 16
ADDRESSES = 1 << 32
MOST_SERVICE = max(services.GATES.values())
FAULTS = ["", "Magic", "Count", "Short", "Code", "Data", "GuardRoom", "Start", "Gates", "Init", "Overlap", "Trailing"]


class Fault(Exception):
    """Bytes that are no image. The number is that of the first test that fails."""

    def __init__(self, name: str) -> None:
        super().__init__(name)
        self.number = FAULTS.index(name)


def zones_of(format: int, data_size: int) -> list[tuple[int, int]]:
    """Where accesses lead to by single masks, beside the data: no sandbox of the image may have any of these addresses."""
    return [(0, data_size + GUARD), (ADDRESSES - GUARD, ADDRESSES)] if format == SINGLE else []


@dataclasses.dataclass
class Part:
    """A sandbox of an image. `gates` has the service of each gate by its address, `init` the first bytes of the data, and
    `code_offset` the place of the code in the image that it was read from."""
    code_base: int
    code: bytes
    data_base: int
    data_size: int
    start: int
    gates: dict[int, int] = dataclasses.field(default_factory=dict)
    init: bytes = b""
    format: int = 0
    code_offset: int = 0

    @property
    def code_size(self) -> int:
        return len(self.code)

    def unit(self) -> int:
        """The bytes between the places at which it may be entered."""
        return 4 if self.format in (WORDS, SINGLE) else 16

    def reserved(self) -> list[int]:
        """What x24 to x27 hold."""
        base = self.data_base if self.format == SINGLE else 0
        return [self.code_base, self.code_size - self.unit(), self.data_base, base + self.data_size - 1]

    def has_code(self, address: int) -> bool:
        return 0 <= address - self.code_base < self.code_size

    def has_data(self, address: int, length: int) -> bool:
        return 0 <= address - self.data_base <= self.data_size - length

    def spans(self, guard: int) -> list[tuple[int, int]]:
        """What it takes up, with so many bytes on each side of its data: from the first address to that after the last."""
        data_end = self.data_base + self.data_size
        return [(self.code_base, self.code_base + self.code_size), (self.data_base - guard, data_end + guard)]

    def zones(self) -> list[tuple[int, int]]:
        return zones_of(self.format, self.data_size)

    def is_in_own_zone(self) -> bool:
        """Whether its code, its data or their guard zones lie where its own accesses lead to beside the data."""
        return not all(are_apart(span, zone) for span in self.spans(GUARD) for zone in self.zones())

    def meets(self, other: "Part") -> bool:
        own, others = self.spans(GUARD), other.spans(GUARD)
        return not all(are_apart(it, that) for these, those in ((own, others), (own, other.zones()), (self.zones(), others))
                       for it in these for that in those)


class Bytes:
    """The bytes that are still to be read."""

    def __init__(self, data):
        self.data, self.at = data, 0

    def take(self, length):
        if length > len(self.data) - self.at:
            raise Fault("Short")
        self.at += length
        return self.data[self.at - length : self.at]

    def words(self, count):
        return struct.unpack(f"<{count}I", self.take(4 * count))


def is_region(base, size, most):
    return 256 <= size <= most and size & (size - 1) == 0 and base % size == 0


def are_apart(one: tuple[int, int], other: tuple[int, int]) -> bool:
    return one[1] <= other[0] or other[1] <= one[0]


def need(fact, name):
    if not fact:
        raise Fault(name)


def add_span(spans, begin, end):
    need(all(are_apart((begin, end), it) for it in spans), "Overlap")
    spans.append((begin, end))


def read_gates(read, count, is_start):
    gates, last = {}, -1
    for _ in range(count):
        address, service = read.words(2)
        need(is_start(address) and address > last and service <= MOST_SERVICE, "Gates")
        gates[address], last = service, address
    return gates


def is_one_bit(number: int) -> bool:
    return number > 0 and number & number - 1 == 0


def read_part(read, format, spans, zones):
    code_base, code_size, data_base, data_size, start, gate_count, init_size = read.words(7)

    def is_start(address):
        return address % 16 == 0 and 0 <= address - code_base < code_size

    need(is_region(code_base, code_size, MOST_CODE[format]), "Code")
    need(is_region(data_base, data_size, MOST_DATA[format]), "Data")
    need(format != SINGLE or is_one_bit(data_base) and data_size <= data_base, "Data")
    need(data_base >= GUARD and data_base + data_size + GUARD <= ADDRESSES, "GuardRoom")
    code, data = (code_base, code_base + code_size), (data_base, data_base + data_size)
    own_zones = zones_of(format, data_size)
    need(all(are_apart(it, zone) for it in (code, data) for zone in own_zones), "GuardRoom")
    need(is_start(start), "Start")
    need(gate_count <= MOST_GATES, "Gates")
    need(init_size <= data_size, "Init")
    add_span(spans, *code)
    add_span(spans, data_base - GUARD, data_base + data_size + GUARD)
    zones += own_zones
    need(all(are_apart(it, zone) for it in spans for zone in zones), "Overlap")
    gates = read_gates(read, gate_count, is_start)
    offset = read.at
    code, init = read.take(code_size), read.take(init_size)
    return Part(code_base, code, data_base, data_size, start, gates, init, format, offset)


def parts(data: bytes) -> list[Part]:
    """The sandboxes of an image; Fault where the bytes are none."""
    read, spans, zones = Bytes(data), list[tuple[int, int]](), list[tuple[int, int]]()
    format = FORMATS.get(read.take(4))
    need(format, "Magic")
    (count,) = read.words(1)
    need(1 <= count <= MOST_SANDBOXES, "Count")
    found = [read_part(read, format, spans, zones) for _ in range(count)]
    need(read.at == len(data), "Trailing")
    return found


def spelled(magic: bytes, sandboxes: Iterable[Part]) -> bytes:
    """The bytes of an image of these sandboxes, whether they are right or not."""
    made = []
    for part in sandboxes:
        numbers = (part.code_base, part.code_size, part.data_base, part.data_size, part.start, len(part.gates), len(part.init))
        gates = (number for gate in part.gates.items() for number in gate)
        made += [struct.pack(f"<{len(numbers) + 2 * len(part.gates)}I", *numbers, *gates) + part.code + part.init]
    return magic + struct.pack("<I", len(made)) + b"".join(made)


def moved(data: bytes, place_of: Callable[[Part], tuple[int, int]]) -> bytes:
    """The image with each sandbox at another place, where it is an image, too, and no byte of its code changed: `place_of` gives
    the bases of a part's code and data."""
    def at_place(part):
        code_base, data_base = place_of(part)
        gates = {address - part.code_base + code_base: service for address, service in part.gates.items()}
        return dataclasses.replace(part, code_base=code_base, data_base=data_base, start=part.start - part.code_base + code_base, gates=gates)
    return spelled(data[:4], [at_place(part) for part in parts(data)])
