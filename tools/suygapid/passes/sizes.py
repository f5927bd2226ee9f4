"""How many bytes each instruction takes in an image. docs/SOURCE.md says what an instruction
becomes; the 16-bit forms are those of RV32C.

An instruction becomes one or two expansions, each of which stands in one bundle. An expansion has
one size, or two where the instruction has a 16-bit form: then `.option rvc` and `.option norvc`
choose. Were a size wrong here, the code would run through more nops than it need, and would do the
same."""
from functools import lru_cache

from suygapid.passes.instructions import NEAR, RELATIVE, Op, replace
from suygapid.passes.operands import REGISTERS

BUNDLE = 16
MASKED = 12  # two masks, and an instruction
SHORT_REGISTERS = range(8, 16)  # those that most 16-bit forms can name
COMPUTING = ("mv", "li", "addi", "lui", "add", "andi", "sub", "xor", "or", "and", "slli", "srli", "srai")


def signed(value, width):
    """The number that the low bits of a value stand for."""
    value %= 1 << width
    return value - (1 << width) if value >> (width - 1) else value


def fits(value, width):
    return -(1 << (width - 1)) <= value < 1 << (width - 1)


def upper_and_rest(value):
    """The number of a `lui` and that of the `addi` after it, which together make a value."""
    rest = signed(value, 12)
    return (value - rest >> 12) % (1 << 20), rest


def number_parts(op):
    """A `li` as the one or two instructions that it stands for."""
    target, value = op.operands[0], signed(int(op.operands[1]), 32)
    if fits(value, 12):
        return [op]
    upper, rest = upper_and_rest(value)
    high = replace(op, word="lui", operands=(target, str(upper)))
    return [high, replace(op, word="addi", operands=(target, target, str(rest)))] if rest else [high]


def has_short_sum(target, base, value):
    """Whether an `addi` has a 16-bit form: c.addi, c.li, c.addi16sp or c.addi4spn."""
    if base == 2 and target == 2 and value and value % 16 == 0 and fits(value, 10):
        return True
    if base == 2 and target in SHORT_REGISTERS and 0 < value < 1024 and value % 4 == 0:
        return True
    return base in (0, target) and fits(value, 6)


def has_short_access(op):
    """Whether a load or store on the stack pointer has a 16-bit form: c.lwsp or c.swsp."""
    offset, base = op.offset, op.base
    if op.word not in ("lw", "sw") or base != "sp" or op.word == "lw" and op.operands[0] == "zero":
        return False
    return 0 <= offset < 256 and offset % 4 == 0


def has_short_form(op):
    """Whether an instruction that stays as it is has a 16-bit form. Branches and jumps to names
    have none."""
    return has_short_access(op) if op.is_access else is_short(op.word, op.operands)


@lru_cache(maxsize=None)
def is_short(word, operands):
    """The same of what is no access."""
    if word in ("nop", "ebreak"):
        return True
    if word not in COMPUTING:
        return False
    numbers = [REGISTERS[text] if text in REGISTERS else int(text) for text in operands]
    if word == "mv":
        return has_short_sum(*numbers, 0)
    if word == "li":
        return has_short_sum(numbers[0], 0, numbers[1])
    if word == "addi":
        return has_short_sum(*numbers)
    if word == "lui":
        return numbers[0] != 2 and numbers[1] != 0 and fits(signed(numbers[1], 20), 6)
    if word == "add":
        return numbers[1] in (0, numbers[0]) and numbers[2] != 0
    if numbers[0] != numbers[1]:
        return False
    target, _, last = numbers
    if word == "andi":
        return target in SHORT_REGISTERS and fits(last, 6)
    if word in ("sub", "xor", "or", "and"):
        return target in SHORT_REGISTERS and last in SHORT_REGISTERS
    return word == "slli" or target in SHORT_REGISTERS


def expansions(op, image_format):
    """The sizes of an instruction's expansions: for each, the one size or the two that it may
    have."""
    return sizes_of(op.word, op.operands, op.wide, image_format == 2, op.address)


def address_sizes(way, wide):
    """The same of `la`: a `lui`, beside which the base is added where the address is relative, and an `addi`."""
    if way == NEAR:
        return ((4,),)
    if way == RELATIVE:
        return (8,) if wide else (6, 8), (4,)
    return (4,), (4,)


@lru_cache(maxsize=None)
def sizes_of(word, operands, wide, has_stack, way=""):
    """The same of a word with operands, in a format that has a stack pointer or one without."""
    op = Op(word, operands, None, wide)
    if has_stack and op.written == "sp":
        parts = 2 if word == "la" else len(number_parts(op)) if word == "li" else 1
        return ((MASKED,),) * parts
    if op.is_access and not (has_stack and op.base == "sp") or word in ("jr", "ret"):
        return ((MASKED,),)
    if word == "jalr":
        return ((MASKED,),) if op.offset == 0 else ((MASKED + 4,),)
    if word == "la":
        return address_sizes(way, wide)
    if word == "li" and number_parts(op) != [op]:
        return tuple(size for part in number_parts(op)
                     for size in sizes_of(part.word, part.operands, wide, has_stack))
    return ((4,),) if wide or not has_short_form(op) else ((2, 4),)
