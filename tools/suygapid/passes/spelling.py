"""How an instruction is spelled for `as`. A 16-bit form gets its own name, `c.addi` and the like, so that a form that isn't
there is the assembler's error; `.option norvc` holds wherever 32 bits are meant."""
from suygapid.passes.operands import REGISTERS
from suygapid.passes.sizes import SHORT_REGISTERS, fits, has_short_form, signed

SUMS = ("mv", "li", "addi")
UPPER = 20  # bits of the number of a `lui`


def plain(op):
    """The spelling of 32 bits."""
    word = "jal zero," if op.word == "j" else op.word
    return f"{word} {', '.join(op.operands)}" if op.operands else word


def sum_parts(op):
    """The target, the base and the number of an instruction that is an `addi`."""
    if op.word == "mv":
        return *op.operands, 0
    return (op.operands[0], "zero", int(op.operands[1])) if op.word == "li" else (*op.operands[:2], int(op.operands[2]))


def short_sum(target, base, value):
    """The 16-bit form of an `addi`, or None. One that changes nothing has none: it is a hint."""
    if base == "zero":
        return f"c.li {target}, {value}" if fits(value, 6) else None
    if base == "sp" and target == "sp" and value and value % 16 == 0 and fits(value, 10):
        return f"c.addi16sp sp, {value}"
    if base == "sp" and REGISTERS[target] in SHORT_REGISTERS and 0 < value < 1024 and value % 4 == 0:
        return f"c.addi4spn {target}, sp, {value}"
    return f"c.addi {target}, {value}" if base == target and value and fits(value, 6) else None


def short_access(op):
    offset, base = op.offset, op.base
    return f"c.{op.word}sp {op.operands[0]}, {offset}({base})"


def short_upper(op):
    value = signed(int(op.operands[1]), UPPER)
    return f"c.lui {op.operands[0]}, {value % (1 << UPPER)}"


def short(op):
    """The spelling of an instruction's 16-bit form, or None where it has none."""
    if op.wide or not has_short_form(op):
        return None
    word, operands = op.word, op.operands
    if word in ("nop", "ebreak"):
        return "c." + word
    if op.written == "zero":
        return None  # a hint
    if word in ("lw", "sw"):
        return short_access(op)
    if word in SUMS:
        return short_sum(*sum_parts(op))
    if word == "lui":
        return short_upper(op)
    if word == "add" and operands[1] == "zero":
        return f"c.mv {operands[0]}, {operands[2]}"
    if word in ("slli", "srli", "srai") and int(operands[2]) == 0:
        return None
    return f"c.{word} {operands[0]}, {operands[2]}"
