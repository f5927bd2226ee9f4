"""Bases that a loop makes of registers that it changes by steps alone, in code in words.

Where a run of a loop's pieces makes a base by sums of such registers, each step of one moves the base by a fixed number. So a
data register that is set to the base before the loop can take these steps."""
from dataclasses import dataclass

from suygapid.passes.facts import ADDRESSES
from suygapid.passes.typed import step_of

SUMS = ("add", "addi", "mv", "sub", "slli")


@dataclass
class Derived:
    """A base that a loop makes: the instructions that make it, the indexes of the accesses on it, and by the index of each
    step that moves it how far it does."""
    base: str
    made: list
    accesses: list
    steps: dict

    def temporary(self):
        """The registers that the instructions write."""
        return frozenset(op.written for op in self.made)


def ends_run(piece):
    return piece.is_mark or piece.is_branch or not piece.goes_on


def stepped_registers(body):
    """The registers that a loop's pieces write by steps alone."""
    return {piece.written for piece in body} - {piece.written for piece in body if step_of(piece, piece.written) is None}


def makers(body, index, base):
    """The indexes of the sums that make a base in the run before an access, and the registers of which they make it."""
    found, wanted, given = [], {base}, stepped_registers(body)
    for place in range(index - 1, -1, -1):
        piece = body[place]
        if ends_run(piece):
            break
        if piece.written in wanted - given:
            if piece.word not in SUMS:
                return [], set()
            found.insert(0, place)
            wanted = wanted - piece.writes | piece.reads
    return found, wanted


def factors(made):
    """How often the last of some sums has each register of which they are made."""
    known, found = {"zero": {}}, {}
    for op in made:
        first, *second = [known.get(text, {text: 1}) for text in op.operands[1:3 if op.word in ("add", "sub") else 2]]
        factor = 1 << int(op.operands[2]) if op.word == "slli" else 1
        found = {name: factor * count for name, count in first.items()}
        for name, count in (second[0] if second else {}).items():
            found[name] = found.get(name, 0) + (-count if op.word == "sub" else count)
        known[op.written] = found
    return found


def moves(body, factor, room):
    """By index, how far each step of the registers of a sum moves it; None where one of them is written otherwise, or where a
    step moves the sum farther than there is room."""
    found = {}
    for index, piece in enumerate(body):
        for name in piece.writes & factor.keys():
            step = step_of(piece, name)
            if step is None or abs(step * factor[name]) > room:
                return None
            found[index] = step * factor[name]
    return {index: count for index, count in found.items() if count}


def accesses_from(body, index, base, factor):
    """The indexes of the accesses on a base in a run, from one on, up to where the base is another."""
    found = []
    for place in range(index, len(body)):
        piece = body[place]
        if ends_run(piece):
            break
        if piece.masked_base == base:
            found.append(place)
        if piece.writes & {base, *factor}:
            break
    return found


def derived(body, index, room):
    """The base of an access as sums make it; None where none do, or where it doesn't move by steps."""
    base = body[index].masked_base
    places, registers = makers(body, index, base)
    if not places or registers & set(ADDRESSES) or any(registers & body[place].writes for place in range(places[0], index)):
        return None
    made = [body[place] for place in places]
    factor = factors(made)
    steps = moves(body, factor, room)
    return None if steps is None else Derived(base, made, accesses_from(body, index, base, factor), steps)
