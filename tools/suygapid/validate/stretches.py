"""Stretches of code: what runs from a place to the next branch, call, or jump by a register, as values and accesses."""
from dataclasses import dataclass, field
from typing import NamedTuple, Optional

from suygapid.isa.decoding import BRANCHES, LOADS, ON_REGISTERS, STORES, WIDTHS
from suygapid.validate import values
from suygapid.validate.machine_code import Name, SectionOffset
from suygapid.validate.values import ZERO, Value, computed, number, of

LINK, STACK = 1, 2
PART = 2048  # the addends of which the compiler pairs parts lie in one block of this number of bytes
DATA_REGISTERS = (2, 3, 4, 31)  # sp, gp, tp and, where masks are single, t6
OWN = (24, 25, 26, 27)  # registers of the sandbox that hold the regions' bases and masks
INVERSE = {"beq": "bne", "bne": "beq", "blt": "bge", "bge": "blt", "bltu": "bgeu", "bgeu": "bltu"}


class Access(NamedTuple):
    """A load, a store or a `fence`: its word, the register loaded or stored, the address, what is stored, and where it is."""
    word: str
    register: int
    address: Value
    stored: Value
    place: SectionOffset

    def width(self):
        return WIDTHS[self.word]


class Event(NamedTuple):
    """What ends a stretch: `branch`, `call`, `jump` to a name, `indirect` jump, `return`, `break`, `loop` or `end`."""
    kind: str
    place: SectionOffset
    word: str = ""
    values: tuple = ()
    target: object = None
    following: object = None


@dataclass
class Stretch:
    start: SectionOffset
    registers: list
    accesses: list = field(default_factory=list)
    stacks: list = field(default_factory=list)  # what the stack pointer holds, one after another
    event: Optional[Event] = None


class Unknown(Exception):
    """An instruction that can't be followed, with its place."""

    def __init__(self, place, what):
        super().__init__(what)
        self.place = place


class Runner:
    """Runs a stretch of one code. `met` takes each access with its number, and answers what it loads."""

    def __init__(self, code, start, met):
        self.code, self.place, self.met = code, start, met
        side = "left" if code.is_left else "right"
        registers = [ZERO] + [of(side, register) for register in range(1, 32)]
        if not code.is_left:
            for register in OWN:
                registers[register] = of("box", register)
        self.stretch = Stretch(start, registers, stacks=[registers[STACK]])
        self.seen = set()

    def run(self):
        """The stretch from the start to the first event."""
        while self.stretch.event is None:
            self.stretch.event = self.halt() or self.step()
        return self.stretch

    def halt(self):
        """The event that comes before the instruction at a place, or None."""
        name = self.code.function_at.get(self.place) if self.seen else None
        if not self.code.is_in(self.place):
            return Event("end", self.place)
        if name:
            return Event("jump", self.place, target=Name(name))
        if self.place in self.seen:
            return Event("loop", self.place, target=self.place)
        self.seen.add(self.place)
        return None

    def step(self):
        """Runs one instruction; the event that it is, or None."""
        place, (instruction, relocation) = self.place, self.code.at(self.place)
        self.place = following = place._replace(offset=place.offset + instruction.size)
        if instruction.op == "jal":
            return self.jump(place, instruction, relocation, following)
        if instruction.op == "jalr":
            return self.indirect(place, instruction, following)
        if relocation is not None and relocation.kind == "call":
            return self.far_jump(place, relocation)
        if instruction.op in BRANCHES:
            pair = self.stretch.registers[instruction.rs1], self.stretch.registers[instruction.rs2]
            return Event("branch", place, instruction.op, pair, self.code.target(place, instruction, relocation), following)
        if instruction.op == "ebreak":
            return Event("break", place)
        if instruction.op in WIDTHS or instruction.op == "fence":
            self.access(place, instruction, relocation)
        else:
            self.write(place, instruction.rd, self.value(place, instruction, relocation))
        return None

    # Control.

    def jump(self, place, instruction, relocation, following):
        target = self.code.target(place, instruction, relocation)
        name = self.code.function_at.get(target) if isinstance(target, SectionOffset) else target.name
        if name and relocation and not relocation.addend and relocation.symbol.name in self.code.functions:
            name = self.code.called(relocation.symbol.name)
        if instruction.rd:
            if name is None:
                raise Unknown(place, "a call of what is no function")
            return Event("call", place, str(instruction.rd), target=Name(name), following=following)
        if name is not None:
            return Event("jump", place, target=Name(name))
        self.place = target
        return None

    def far_jump(self, place, relocation):
        """An `auipc` and the `jalr` after it, by which the assembler reaches any name."""
        register = self.code.at(self.place)[0].rd
        following = self.place._replace(offset=self.place.offset + 4)
        target = Name(self.code.called(relocation.symbol.name))
        if register:
            return Event("call", place, str(register), target=target, following=following)
        return Event("jump", place, target=target)

    def indirect(self, place, instruction, following):
        goal = self.stretch.registers[instruction.rs1].plus(number(instruction.number))
        atom = goal.only_atom()
        if atom and atom[0] == "code":
            goal = atom[1]
        atom = goal.only_atom()
        if instruction.rd:
            target = Name(self.code.called(atom[1])) if atom and atom[0] == "address" else None
            return Event("call", place, str(instruction.rd), (goal,), target, following)
        if atom and atom[0] == "address" and atom[1] in self.code.functions:
            return Event("jump", place, target=Name(self.code.called(atom[1])))
        is_return = self.code.is_left and instruction.rs1 == LINK
        return Event("return" if is_return else "indirect", place, values=(goal,))

    # Values.

    def part(self, place, instruction, relocation):
        """The number of an instruction, or the part of an address that stands in its place."""
        if relocation is None:
            return number(instruction.number)
        whole = self.code.upper(relocation) if relocation.kind == "pcrel_lo" else relocation
        low = self.low(whole.symbol.name, whole.addend)
        if relocation.kind in ("pcrel_lo", "lo"):
            return low
        if relocation.kind in ("hi", "pcrel_hi"):
            upper = of("address", whole.symbol.name).plus(number(whole.addend)).minus(low)
            return self.relative(place, instruction, upper) if self.code.is_movable else upper
        raise Unknown(place, f"a relocation {relocation.kind}")

    def relative(self, place, instruction, upper):
        """The upper part of an address in a program that can be moved: less its region's base, which is added after it. Masks
        take the place of that in a data register."""
        if self.code.is_relative(place, instruction.rd):
            return upper.minus(of(*values.DATA_BASE))
        if instruction.rd in DATA_REGISTERS:
            return upper
        raise Unknown(place, "an address that isn't relative to its region")

    def low(self, name, addend):
        """What `%lo` is. The compiler pairs it with an upper part of another addend near it, and stores upper parts alone. Its
        parts are taken to be those of another split: the upper one an address, the lower one what is left of the addend."""
        return number(addend % PART) if self.code.is_left else of("low", name, addend)

    def based(self, value):
        """A value in which the data region's first address and the low part of a small object's are the object's address."""
        if value.terms.get(values.DATA_BASE) == 1:
            for atom, factor in value.terms.items():
                if atom[0] == "low" and factor == 1 and self.code.is_small(*atom[1:]):
                    rest = value.minus(of(*atom)).minus(of(*values.DATA_BASE))
                    return rest.plus(of("address", atom[1])).plus(number(atom[2]))
        return value

    def value(self, place, instruction, relocation):
        word, first = instruction.op, self.stretch.registers[instruction.rs1]
        if word in ("lui", "auipc"):
            if word == "auipc" and relocation is None:
                raise Unknown(place, "an auipc without a name")
            return self.part(place, instruction, relocation)
        if word in ("unknown", "ecall"):
            raise Unknown(place, f"an instruction that is {word}")
        second = self.stretch.registers[instruction.rs2]
        if word in ON_REGISTERS:
            second = self.part(place, instruction, relocation)
        found = computed(ON_REGISTERS.get(word, word), first, second)
        return found if self.code.is_left else self.based(found)

    def write(self, place, register, value):
        if not self.code.is_left and register in OWN:
            raise Unknown(place, f"a write of x{register}, which the sandbox keeps")
        if register:
            self.stretch.registers[register] = value
        if register == STACK:
            self.stretch.stacks.append(value)

    def access(self, place, instruction, relocation):
        base = self.stretch.registers[instruction.rs1]
        stored, register = None, instruction.rd
        address = ZERO if instruction.op == "fence" else base.plus(self.part(place, instruction, relocation))
        if instruction.op in STORES:
            register, stored = instruction.rs2, self.stretch.registers[instruction.rs2]
        if not self.code.is_left:
            address = self.based(address)
        access = Access(instruction.op, register, address, stored, place)
        self.stretch.accesses.append(access)
        value = self.met(len(self.stretch.accesses) - 1, access)
        if instruction.op in LOADS:
            self.write(place, register, value)
