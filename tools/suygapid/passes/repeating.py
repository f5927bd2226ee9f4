"""Masks that are made again though a data register still has what they make, in code in words.

An access on another register than those of the data leaves its masked base in `t4`, and `mv` leaves that of its source in the
data register that it sets. Until one of the two registers is written this stays so, whatever the base is. So the next access on
that base may be on that data register, and the same `mv` again may go, where this is so on each way there."""
from suygapid.passes.control import Blocks
from suygapid.passes.facts import ADDRESSES, DATA, MASKED
from suygapid.passes.operands import REGISTERS
from suygapid.passes.typed import HIGHEST, LOWEST, on_base

# What is held is a number: 32 bits for each of these, of which bit n says that it has the masked value of register n.
HOLDERS = {name: 32 * place for place, name in enumerate(sorted((*ADDRESSES, MASKED)))}
EACH = sum(1 << place for place in HOLDERS.values())
ALL = (1 << 32) - 1


def move_of(piece):
    """The two registers of an `mv` whose source isn't one of the data; None for all else."""
    if piece.word == "mv" and piece.written not in ("sp", "zero") and piece.operands[1] not in (*DATA, "zero"):
        return piece.operands
    return None


def pair(name, register):
    return 1 << HOLDERS[name] + REGISTERS[register]


def holder(piece, held):
    """The data register that has the masked base of an access, or None."""
    if not held or piece.masked_base is None or not LOWEST <= piece.offset <= HIGHEST:
        return None
    return next((name for name in HOLDERS if held & pair(name, piece.masked_base)), None)


def after(pieces, held):
    """What is held after some pieces that control goes through."""
    for piece in pieces:
        if piece.masked_base or piece.word == "mv":
            held = after_one(piece, held)
        elif held:
            held = 0 if piece.is_call else without(held, piece)
    return held


def without(held, piece):
    """What is held still where a piece has written its register."""
    if piece.written in HOLDERS:
        held &= ~(ALL << HOLDERS[piece.written])
    return held & ~(piece.written_bits * EACH)


def after_one(piece, held):
    """What is held after an access that gets masks, or an `mv`."""
    new, move = 0, move_of(piece)
    if move:
        target, source = move
        new = pair(target, source) if target in DATA else (held >> REGISTERS[source] & EACH) << REGISTERS[target]
    elif piece.masked_base and holder(piece, held) is None:
        held = held & ~(ALL << HOLDERS[MASKED]) | pair(MASKED, piece.masked_base)
    return without(held, piece) | new


def held_at_starts(blocks):
    """What is held where each block begins, on each way to it; None where no way leads to it."""
    states = [0 if block in blocks.entries else None for block in range(len(blocks.starts))]
    waiting = sorted(blocks.entries)
    while waiting:
        block = waiting.pop()
        held = after(blocks.bodies[block], states[block])
        for target in blocks.following[block]:
            new = held if states[target] is None else states[target] & held
            if new != states[target]:
                states[target] = new
                waiting.append(target)
    return states


def is_made_again(piece, held):
    """Whether a piece is an `mv` that makes what its register has."""
    move = move_of(piece)
    return bool(move and move[0] in HOLDERS and held & pair(*move))


def without_repeated_masks(code):
    blocks, out = Blocks(code), []
    for body, held in zip(blocks.bodies, held_at_starts(blocks)):
        held = held or 0
        for piece in body:
            if not held and not piece.masked_base and piece.word != "mv":
                out.append(piece)
                continue
            name = holder(piece, held)
            if name:
                out.append(on_base(piece, name, piece.offset))
            elif not held or not is_made_again(piece, held):
                out.append(piece)
            held = after((piece,), held)
    return out
