"""Code in words of typed registers, as `.format words` has it: which registers hold addresses of the data region, and
what the rules make of an instruction. docs/SOURCE.md says it.

An access on a data register is itself. So is one on `zero`, by the register that holds the data base; on any other
register it gets two masks before it. What writes a data register gets two masks after it, but for a step: `addi d, d, k`
directly before an access on d that is in reach and is no load into `zero`. Where masks are single there is one in the place
of two, and x31, which holds nothing between the two then, is a data register; and an access by a number alone, as by a null
pointer that the compiler knows, is on the mask of `zero`, so that it traps."""

from functools import reduce
from operator import or_

from suygapid.passes.assembly import Refused
from suygapid.passes.facts import ADDRESSES, DATA, LOADS, SHAPES, bits
from suygapid.passes.instructions import Op, replace
from suygapid.passes.small_data import SmallData

WORDS, SINGLE = "words", "single"  # the formats' names
IN_WORDS = (WORDS, SINGLE)
USUAL = SINGLE  # that of code for which no option names one; elf/linking.py says where a program has another
OWN = {"t4": 29, "t5": 30}  # the sandbox's own registers, beside those of the other formats
MASKS = {WORDS: 2, SINGLE: 1}  # how many instructions it takes to mask an address, or to set a data register to another register
FREE = {WORDS: ADDRESSES[:2], SINGLE: ADDRESSES}  # the data registers that compilers leave alone
LOWEST, HIGHEST = -2048, 2047  # the offsets of an access
REACH = 1020  # the offsets of the access after a step
LARGEST_STEP = 256  # of a pointer: there is room for one at both ends of the data


def format_of(text):
    """The format that an option names: a number, or a word."""
    return int(text) if text.isdigit() else text


def on_base(op, base, offset):
    """An access on another base."""
    return replace(op, operands=(op.operands[0], f"{offset}({base})"))


def set_to(register, base):
    """The instruction that makes a data register point where a base does."""
    return Op("mv", (register, base), None)


def is_trapping(op, image_format):
    """Whether an instruction is an access by a number alone, and none to a small object, where those trap."""
    return image_format == SINGLE and op.is_access and op.base == "zero" and not SmallData.holds(op.offset)


def is_move(op):
    """Whether an instruction sets a data register to another register or to 0: its masks do that alone."""
    if op.written not in DATA:
        return False
    if op.word in ("addi", "li"):
        return int(op.operands[-1]) == 0
    return op.word == "mv" or op.word == "add" and op.operands[1] == "zero"


def step_of(piece, name):
    """The number k of `addi name, name, k`; None for all else."""
    return piece.step if piece.operands[:1] == (name,) else None


def may_follow_step(piece, name):
    """Whether a step of a data register directly before this piece needs no masks. Before a load into `zero`, which a
    processor may drop, it does."""
    into_zero = piece.word in LOADS and piece.written == "zero"
    return is_on(piece, name) and -REACH <= piece.offset <= REACH and not into_zero


def is_free_step(piece, following):
    """Whether a piece is a step that needs no masks, before the piece that follows it, or before None."""
    return piece.step is not None and piece.written in DATA and following is not None and may_follow_step(following, piece.written)


def is_on(piece, name):
    """Whether a piece is an access on a register."""
    return piece.is_access and piece.base == name


def has_only_base(piece, name):
    """Whether a piece is an access that has a register as its base alone, and doesn't write it."""
    return is_on(piece, name) and name not in piece.values | piece.writes


def renamed(op, name, other):
    """An instruction with another register in the place of one, wherever it's read or written."""
    shape = SHAPES.get(op.word, "")
    operands = tuple(other if kind == "R" and text == name else text for kind, text in zip(shape, op.operands))
    if "M" in shape and op.base == name:
        operands = (operands[0], f"{op.offset}({other})")
    return replace(op, operands=operands)


def renamed_reads(op, name, other):
    """An instruction that reads another register in the place of one."""
    changed = renamed(op, name, other)
    return replace(changed, operands=(name, *changed.operands[1:])) if op.written == name else changed


def largest_step(ops):
    """The largest step of a pointer in the assembly of a program, of those that a data register may take in its place."""
    steps = [abs(op.step) for op in ops if op.step is not None and op.written != "sp"]
    return max((step for step in steps if step <= LARGEST_STEP), default=0)


def free_addresses(code, image_format=WORDS):
    """The data registers that nothing in the program names; none in bundles."""
    named = reduce(or_, (piece.read_bits | piece.written_bits for piece in code), 0)
    return tuple(name for name in FREE.get(image_format, ()) if not named & bits(frozenset((name,))))


def uses(piece, name):
    return name in piece.reads | piece.writes


def check_registers(ops):
    """Refuses an instruction that names one of the registers that code in words keeps for masks, or that the rules don't
    allow."""
    own = bits(frozenset(OWN))
    for op in ops:
        for name in sorted(op.reads | op.writes) if (op.read_bits | op.written_bits) & own else ():
            if name in OWN:
                raise Refused(op.place, f"{name} (x{OWN[name]}) is the sandbox's own register in words: compile with "
                                        f"-ffixed-x{OWN[name]}; assembly that names it wants --format 2")
        if op.word in ("jal", "jalr") and op.written in DATA:
            raise Refused(op.place, f"{op.word} into {op.written}, which holds an address of the data")


def with_plain_jumps(code):
    """The code whose jumps to a register plus a number have the sum in the register that they write."""
    if not any(piece.word == "jalr" and piece.offset for piece in code):
        return code
    out = []
    for piece in code:
        if piece.word != "jalr" or piece.offset == 0:
            out.append(piece)
            continue
        link, offset, base = piece.operands[0], piece.offset, piece.base
        if link == "zero":
            raise Refused(piece.place, "a jump to a register plus a number")
        out += [replace(piece, word="addi", operands=(link, base, str(offset))),
                replace(piece, operands=(link, f"0({link})"))]
    return out
