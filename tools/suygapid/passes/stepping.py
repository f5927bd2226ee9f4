"""Steps of data registers beside accesses, in code in words.

There `addi d, d, k` directly before an access on d that is in reach needs no masks. So a step is moved down to the next
access on d, or up to the one before it, whose offset, and those of what stands between them, change by k."""

from suygapid.passes.dependences import runs
from suygapid.passes.facts import DATA
from suygapid.passes.instructions import replace
from suygapid.passes.typed import HIGHEST, LOWEST, has_only_base, is_free_step, may_follow_step, on_base, step_of, uses


def moved_down(ops, index, name):
    """The run with a step directly before the next access on its register, or None."""
    for place in range(index + 1, len(ops)):
        if has_only_base(ops[place], name):
            if not may_follow_step(ops[place], name):
                return None
            return [*ops[:index], *ops[index + 1:place], ops[index], *ops[place:]]
        if uses(ops[place], name):
            return None
    return None


def less(op, name, count):
    """An instruction that reads a data register as the base of an access or in a sum, after the register is so much more;
    None for another one."""
    if has_only_base(op, name):
        offset = op.offset - count
        return on_base(op, name, offset) if LOWEST <= offset <= HIGHEST else None
    if op.is_access or name in op.writes or op.word not in ("addi", "mv"):
        return None
    number = (int(op.operands[2]) if op.word == "addi" else 0) - count
    fits = LOWEST <= number <= HIGHEST
    return replace(op, word="addi", operands=(op.operands[0], name, str(number))) if fits else None


def moved_up(ops, index, name):
    """The run with a step directly before an earlier access on its register, or None."""
    between = []
    for place in range(index - 1, -1, -1):
        op = ops[place]
        if name in op.reads | op.writes:
            if place and is_free_step(ops[place - 1], op):
                return None
            op = less(op, name, step_of(ops[index], name))
            if op is None:
                return None
            if may_follow_step(op, name):
                return [*ops[:place], ops[index], op, *reversed(between), *ops[index + 1:]]
        between.append(op)
    return None


def stepped(ops):
    """A run of instructions with its steps beside accesses, as far as that is found."""
    seen = set()
    while True:
        index = next((index for index, op in enumerate(ops)
                      if op.step is not None and id(op) not in seen and is_costly_step(ops, index)), None)
        if index is None:
            return ops
        seen.add(id(ops[index]))
        name = ops[index].operands[0]
        ops = moved_down(ops, index, name) or moved_up(ops, index, name) or ops


def is_costly_step(code, index):
    """Whether a piece is a step that gets masks."""
    piece = code[index]
    if piece.step is None or piece.written not in DATA:
        return False
    return not is_free_step(piece, code[index + 1] if index + 1 < len(code) else None)


def costly_steps(code):
    """The numbers of the steps that get masks."""
    return [index for index, piece in enumerate(code) if piece.step is not None and is_costly_step(code, index)]


def with_steps(code):
    if not costly_steps(code):
        return code
    out = []
    for run in runs(code):
        ops = [code[number] for number in run]
        out += ops if ops[0].is_mark else stepped(ops)
    return out
