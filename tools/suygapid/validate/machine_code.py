"""The code of an object file: its instructions, where each leads, and what its names stand for."""
from functools import lru_cache
from typing import NamedTuple

from suygapid.isa.decoding import BRANCHES, Instruction, decode
from suygapid.validate.objects import LOCAL, WEAK

LINE = "sfi_line_"  # begins labels that tell the line of an assembly
CALLER_SAVED = frozenset([1, *range(5, 8), *range(10, 18), *range(28, 32)])  # what a call may overwrite
READING = {"word", "hi", "lo", "pcrel_hi", "got"}  # relocations by which an address is taken
WRITTEN_BESIDE = frozenset([3, 4])  # gp and tp: the compiler's code leaves them alone, and a call doesn't keep them
SMALL = (".sdata", ".sbss", ".srodata")
LARGEST_SMALL = 64  # bytes of an object in small data
DATA_BASE = 26


class SectionOffset(NamedTuple):
    """Where something of the code lies: its section, and how far from its begin."""
    section: str
    offset: int


class Name(NamedTuple):
    """A name that the file doesn't define in its code."""
    name: str


class Code:
    """An object file's code. `is_left` says whether it is the compiler's, and not the rewritten one, and `is_movable` whether
    the linker is to make each address relative to its region's base."""

    def __init__(self, objects, is_left, is_movable=False):
        self.objects, self.is_left, self.is_movable = objects, is_left, is_movable
        self.sections = {name: section for name, section in objects.sections.items() if section.is_code()}
        self.labels = {symbol.name: SectionOffset(symbol.section, symbol.value) for symbol in objects.symbols
                       if symbol.section in self.sections and symbol.name != symbol.section
                       and not symbol.name.startswith(("$", LINE))}
        self.functions = {name: place for name, place in self.labels.items() if not name.startswith(".")}
        self.function_at = {self.functions[name]: name for name in sorted(self.functions, key=self.order, reverse=True)}
        self.taken = self.taken_names()
        self.lines = {SectionOffset(symbol.section, symbol.value): int(symbol.name[len(LINE):])
                      for symbol in objects.symbols if symbol.name.startswith(LINE)}
        self.starts = {}
        for place in sorted(self.function_at):
            self.starts.setdefault(place.section, []).append(place.offset)

    def is_weak(self, name):
        """Whether another file's function may take the place of one of this file."""
        return self.objects.named[name].binding == WEAK

    def order(self, name):
        """Of the names of one function the least tells it: one that isn't weak, if there is one."""
        return self.is_weak(name), name

    def called(self, name):
        """The name that tells a function by one of its names, which are alike but for weak ones."""
        place = self.functions.get(name)
        return name if place is None or self.is_weak(name) else self.function_at[place]

    def taken_names(self):
        """The labels of the code whose addresses are taken."""
        return {relocation.symbol.name for section in self.objects.sections.values() if section.flags & 2
                for some in section.relocations.values() for relocation in some
                if relocation.kind in READING and relocation.symbol.name in self.labels}

    def is_entered_from_elsewhere(self, name):
        """Whether control may come to a function otherwise than by this file's calls and jumps by its name."""
        return self.objects.named[name].binding != LOCAL or name in self.taken

    def is_in(self, place):
        return place.offset < len(self.sections[place.section].content)

    @lru_cache(maxsize=None)
    def at(self, place):
        """The instruction at a place, and its relocation or None."""
        section = self.sections[place.section]
        found = [one for one in section.relocations.get(place.offset, ()) if one.kind != "number 51"]
        size = 4 if section.content[place.offset] & 3 == 3 else 2
        return decode(section.content, place.offset) or Instruction("unknown", size), found[0] if found else None

    def target(self, place, instruction, relocation):
        """Where a branch or a jump leads."""
        if relocation is None:
            return SectionOffset(place.section, place.offset + instruction.number)
        symbol = relocation.symbol
        if symbol.section in self.sections:
            return SectionOffset(symbol.section, symbol.value + relocation.addend)
        return Name(symbol.name)

    def upper(self, relocation):
        """The relocation of the `auipc` of which a `%pcrel_lo` speaks."""
        symbol = relocation.symbol
        return self.at(SectionOffset(symbol.section, symbol.value))[1]

    def is_small(self, name, addend):
        """Whether an address is reached from the data region's first one: that of a small object, or beside one."""
        symbol = self.objects.named.get(name)
        is_near = symbol is not None and symbol.section is not None and symbol.binding != 2
        return bool(is_near and symbol.section.startswith(SMALL) and -LARGEST_SMALL <= addend <= LARGEST_SMALL)

    def is_relative(self, place, register):
        """Whether the data base is added to a register after its `lui` there, or after the instruction of 4 bytes that follows:
        the linker makes the upper part relative there, and of the base that of the address's region."""
        content = self.sections[place.section].content
        return any(self.adds_base(place._replace(offset=offset), register)
                   for offset in (place.offset + 4, place.offset + 8) if offset < len(content))

    def adds_base(self, place, register):
        instruction = self.at(place)[0]
        return instruction.op == "add" and (instruction.rd, instruction.rs1, instruction.rs2) == (register, register, DATA_BASE)

    def owner(self, place):
        """The function that a place belongs to, or None."""
        before = [start for start in self.starts.get(place.section, ()) if start <= place.offset]
        return self.function_at[SectionOffset(place.section, before[-1])] if before else None

    def written(self):
        """By the name of each function the registers that it may write, with those of all that it calls."""
        own, leads = {name: set() for name in self.functions}, {name: set() for name in self.functions}
        for section in self.sections:
            place = SectionOffset(section, 0)
            while self.is_in(place):
                name = self.owner(place)
                instruction, relocation = self.at(place)
                if name is not None:
                    self.add_written(name, place, instruction, relocation, own, leads)
                place = place._replace(offset=place.offset + instruction.size)
        found = spread(own, leads)
        return {name: found[self.function_at[place]] for name, place in self.functions.items()}

    def add_written(self, name, place, instruction, relocation, own, leads):
        """Adds what an instruction of a function writes."""
        own[name].add(instruction.rd)
        everything = CALLER_SAVED if self.is_left else CALLER_SAVED | WRITTEN_BESIDE
        if instruction.op in ("jal", *BRANCHES) or relocation is not None and relocation.kind == "call":
            target = self.target(place, instruction, relocation)
            other = self.owner(target) if isinstance(target, SectionOffset) else None
            if other is None:
                own[name] |= everything
            elif other != name:
                leads[name].add(other)
        elif instruction.op == "jalr" and (instruction.rd or self.is_left and instruction.rs1 != 1):
            before = self.at(place._replace(offset=place.offset - 4))[1] if place.offset >= 4 else None
            own[name] |= set() if before is not None and before.kind == "call" else everything


def spread(own, leads):
    """The sets with those of all names to which each leads."""
    changed = True
    while changed:
        changed = False
        for name, others in leads.items():
            more = set().union(own[name], *(own[other] for other in others))
            if more != own[name]:
                own[name], changed = more, True
    return own
