"""Accesses to objects whose place in the data region is known, and that lie at its beginning.

A masked `zero` is the region's first address, so a load or store at `N(zero)` reaches the
region's byte N, up to 2047, and needs no address in a register. A `la` whose address nothing
reads after that is left out."""

from suygapid.passes.control import blocks_of
from suygapid.passes.instructions import replace
from suygapid.passes.liveness import without_unread

FARTHEST = 2047
# A call leaves these registers as they were, as the RISC-V calling convention has it.
KEPT_BY_CALLS = {"s0", "s1", "s2", "s3", "s4", "s5", "s6", "s7"}


class Known:
    """Follows the registers that hold the address of a place in the data, with its offset in the
    region."""

    def __init__(self, offsets):
        self.offsets = offsets

    def take(self, op, known):
        """Changes what is known by an instruction."""
        if op.is_call:
            for name in known.keys() - KEPT_BY_CALLS:
                del known[name]
            return
        target, offset = op.written, self.offset_of(op, known)
        known.pop(target, None)
        if offset is not None:
            known[target] = offset

    def offset_of(self, op, known):
        """The offset of the address that an instruction writes, or None."""
        if op.word == "la":
            return self.offsets.get(op.operands[1])
        if op.word == "mv":
            return known.get(op.operands[1])
        if op.word == "addi" and op.operands[1] in known:
            return known[op.operands[1]] + int(op.operands[2])
        return None


def known_at_starts(blocks, following):
    """What is known where each block begins: a register with one offset on each way to it. None
    where no way leads to it."""
    states = [None] * len(blocks.starts)
    for entry in blocks.entries:
        states[entry] = {}
    waiting = sorted(blocks.entries, reverse=True)
    while waiting:
        block = waiting.pop()
        after = dict(states[block])
        for piece in blocks.bodies[block]:
            if not piece.is_mark:
                following.take(piece, after)
        for target in blocks.following[block]:
            old = states[target]
            new = after if old is None else dict(old.items() & after.items())
            if new != old:
                states[target] = new
                waiting.append(target)
    return states


def direct(op, known, farthest):
    """An access to a known place, without a base. The second format takes a load of the stack
    pointer on `sp` alone."""
    if not known or not op.is_access or op.written == "sp":
        return op
    offset, base = op.offset, op.base
    if base not in known or not 0 <= known[base] + offset <= farthest:
        return op
    return replace(op, operands=(op.operands[0], f"{known[base] + offset}(zero)"))


def with_known_places(code, small, farthest=FARTHEST):
    blocks, following = blocks_of(code), Known(small.offsets)
    if not any(piece.word == "la" and piece.operands[1] in small.offsets for piece in code):
        return without_unread(blocks)
    out = []
    for body, state in zip(blocks.bodies, known_at_starts(blocks, following)):
        known = dict(state or {})
        for piece in body:
            out.append(piece if piece.is_mark else direct(piece, known, farthest))
            if not piece.is_mark:
                following.take(piece, known)
    return without_unread(blocks.changed(out))
