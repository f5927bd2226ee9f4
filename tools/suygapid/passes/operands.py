"""Registers, numbers and symbols: what stands as an operand in assembly."""
import re
from dataclasses import dataclass

from suygapid.passes.assembly import Refused

ABI_NAMES = ("zero ra sp gp tp t0 t1 t2 s0 s1 a0 a1 a2 a3 a4 a5 a6 a7 "
             "s2 s3 s4 s5 s6 s7 s8 s9 s10 s11 t3 t4 t5 t6").split()
REGISTERS = {name: number for number, name in enumerate(ABI_NAMES)}
REGISTERS.update({f"x{number}": number for number in range(32)}, fp=8)
RESERVED = {24, 25, 26, 27, 31}
STACK_POINTER = 2
PART_SIZE = 2048  # what a positive offset of a load or store reaches

SYMBOL = re.compile(r'([A-Za-z_.$][\w.$]*)((?:[+-]\w+)*)(?:@plt)?')
ADDEND = re.compile(r'[+-]\w+')
MEMORY = re.compile(r'(.*)\(\s*([a-z]\w*)\s*\)')
OCTAL = re.compile(r'-?0[0-7]+')
PART = re.compile(r'%(hi|lo|pcrel_hi|pcrel_lo)\((.*)\)')


@dataclass(frozen=True)
class Symbol:
    """A symbol's address plus a number."""
    name: str
    addend: int = 0

    def __str__(self):
        return self.name if self.addend == 0 else f"{self.name}{self.addend:+}"


def register(text, place):
    """The register's name by the ABI; one of the sandbox's own registers is refused."""
    if text not in REGISTERS:
        raise Refused(place, f"{text!r} is no register of RV32I")
    number = REGISTERS[text]
    if number in RESERVED:
        raise Refused(place, f"{text} is the sandbox's own register: compile with -ffixed-x{number}")
    return ABI_NAMES[number]


def is_register(text):
    return text in REGISTERS


def is_stack_pointer(text):
    return REGISTERS.get(text) == STACK_POINTER


def number_or_none(text):
    try:
        return int(text, 8) if OCTAL.fullmatch(text) else int(text, 0)
    except ValueError:
        return None


def number(text, place, low, high):
    value = number_or_none(text)
    if value is None:
        raise Refused(place, f"{text!r} is no number")
    if not low <= value <= high:
        raise Refused(place, f"{text} is outside {low} to {high}")
    return value


def symbol(text, place):
    match = SYMBOL.fullmatch(text)
    addends = [number_or_none(addend) for addend in ADDEND.findall(match.group(2))] if match else [None]
    if None in addends:
        raise Refused(place, f"{text!r} is no symbol plus a number")
    return Symbol(match.group(1), sum(addends))


def is_symbol(text):
    return SYMBOL.fullmatch(text) is not None


def upper(whole):
    """A symbol as the upper part of its address stands for: the address without what `lower` adds."""
    return Symbol(whole.name, whole.addend - lower(whole))


def lower(whole):
    """What is left of a symbol's addend, so that the upper part lies no farther than the whole."""
    return whole.addend % PART_SIZE
