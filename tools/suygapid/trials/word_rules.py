"""Code in words, read and judged by its table of rules in docs/IMAGE.md, apart from the proved checker.

It is untrusted: nothing is proved of it. `fuzz/commands.py` and `fuzz/mutants.py` compare the program with it.
"""
import struct
from typing import Callable, NamedTuple

from suygapid.isa.decoding import BRANCHES, LOADS, WIDTHS, Instruction, decode16, decode32

DATA_REGISTERS = (2, 3, 4, 29)
NONE = Instruction("none", 0)
JUMPS = ("jal", "jalr")


def word_read(code, at):
    """The instructions of the word, by place, and V1 or V2 at what isn't read."""
    first, second = struct.unpack_from("<2H", code, at)
    if first & 3 == 3:
        read = decode32(second << 16 | first)
        return ([(at, read)], []) if read else ([], [(at, "V1")])
    front = decode16(first)
    if not front:
        return [], [(at, "V1")]
    if second & 3 == 3:
        return [(at, front)], [(at + 2, "V1" if second & 31 == 31 else "V2")]
    back = decode16(second)
    return ([(at, front), (at + 2, back)], []) if back else ([(at, front)], [(at + 2, "V1")])


# ---- what may write a typed register


def places(target, it):
    return (it.op, it.rd, it.rs1, it.rs2) == ("or", target, 31, 26)


def masks(target, it):
    return (it.op, it.rd, it.rs1, it.rs2) == ("and", 31, target, 27)


def masks_alone(target, it):
    """The single mask."""
    return (it.op, it.rd, it.rs2) == ("and", target, 27)


class Rules(NamedTuple):
    """What differs between masks of two steps and single ones: the data registers, those that nothing may write, on which an access
    may be, the last and the first step of a mask, and whether x31 holds an offset between the two."""
    data_registers: tuple
    reserved: tuple
    bases: tuple
    places: Callable
    masks: Callable
    has_offset: bool


WORDS = Rules(DATA_REGISTERS, (24, 25, 26, 27), (*DATA_REGISTERS, 26), places, masks, True)
SINGLE = Rules((*DATA_REGISTERS, 26, 31), (24, 25, 27), (*DATA_REGISTERS, 26, 31), masks_alone, masks_alone, False)


def places_code(it):
    return (it.op, it.rd, it.rs1, it.rs2) == ("or", 30, 30, 24)


def masks_code(it):
    return (it.op, it.rd, it.rs2) == ("and", 30, 25)


def steps(target, it):
    return (it.op, it.rd, it.rs1) == ("addi", target, target)


def uses(target, it):
    into_x0 = it.op in LOADS and it.rd == 0
    return it.op in WIDTHS and it.rs1 == target and -1020 <= it.number <= 1020 and not into_x0


def owes(rules, it):
    """The data register that it writes and that has to be put back by what comes, or 0."""
    return it.rd if it.rd in rules.data_registers and it.op not in JUMPS and not rules.places(it.rd, it) else 0


def breaks_data(rules, it, before, earlier):
    """V10, by the instructions directly before it and before that."""
    target = owes(rules, before)
    if target and not rules.masks(target, it) and not (steps(target, before) and uses(target, it)):
        return True
    target = owes(rules, earlier)
    if target and rules.has_offset and rules.masks(target, before) and not rules.places(target, it):
        return True
    return it.op in JUMPS and it.rd in rules.data_registers


def breaks_code(it, before):
    return masks_code(before) and not places_code(it) or it.rd == 30 and not places_code(it) and not masks_code(it)


def broken(rules, it, at, size, gates, before, earlier):
    """The rules that it breaks there, the lowest first."""
    tests = [
        ("V3", it.op == "ecall" and at not in gates),
        ("V4", it.rd in rules.reserved),
        ("V5", it.op in WIDTHS and it.rs1 not in rules.bases),
        ("V6", it.op == "jalr" and (it.rs1 != 30 or it.number != 0)),
        ("V7", it.op in ("jal", *BRANCHES) and not (0 <= at + it.number < size and (at + it.number) % 4 == 0)),
        ("V8", at + it.size == size and it.op not in ("jal", "jalr", "ebreak")),
        ("V10", breaks_data(rules, it, before, earlier)),
        ("V11", breaks_code(it, before)),
        ("V12", rules.has_offset and it.rd == 31 and (it.op, it.rs2) != ("and", 27)),
    ]
    return [rule for rule, is_broken in tests if is_broken]


def findings(code, gates, but=(), rules=WORDS):
    """The place and the rule of each finding, by places in the code; the rules `but` are left out."""
    found, before, earlier = [], NONE, NONE
    for at in range(0, len(code), 4):
        read, unread = word_read(code, at)
        for place, it in read:
            all_broken = [rule for rule in broken(rules, it, place, len(code), gates, before, earlier) if rule not in but]
            found += [(place, rule) for rule in all_broken[:1]]
            before, earlier = it, before
        if unread:
            before = earlier = NONE
        found += [(place, rule) for place, rule in unread if rule not in but]
    return found
