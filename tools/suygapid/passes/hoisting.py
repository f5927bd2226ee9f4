"""Masks taken out of loops, in code in words: a base is put in a data register before the loop, and the accesses on it in
the loop are on that register. The base is

- one that the loop doesn't change;
- a pointer that it changes by steps `addi a, a, k` alone: the data register takes the same steps, and is there in place of
  the pointer, which is set to it where the loop is left; or
- a sum that it makes of such registers (`deriving`): the data register takes the steps by which that moves.

Steps need no masks beside an access (`stepping`, `raising`).

A base that leads to an object lies in the data region, and so does a pointer one step beside it (`margins`): masking it
before the loop in place of at each access changes nothing. At other places a pointer may be any number. So the first access
on it has to come before it has moved by more than the largest step, and each other use when it has moved by no more since
an access. Data registers that compilers leave alone hold nothing across calls, so a loop with a call isn't changed."""
from dataclasses import dataclass, field
from itertools import islice

from suygapid.passes.control import blocks_of, leads_back
from suygapid.passes.dependences import runs
from suygapid.passes.deriving import derived
from suygapid.passes.facts import bits
from suygapid.passes.functions import functions
from suygapid.passes.instructions import Op
from suygapid.passes.liveness import liveness_of
from suygapid.passes.looping import Code, Placing
from suygapid.passes.loops import loops_of
from suygapid.passes.raising import Ways
from suygapid.passes.stepping import costly_steps, stepped
from suygapid.passes.typed import is_on, on_base, renamed, set_to, step_of, uses

FAR = float("inf")
MASKS = 2  # what masks count, also where they are single: as measured, more loops pay then than by their number


@dataclass
class Plan:
    """What a loop becomes: by index the pieces that stand in the place of one, what stands before the loop, the registers
    that are set back where it's left, each with what it's set to, and what that gains."""
    changes: dict
    before: list
    gain: float
    back: list = field(default_factory=list)


def on_register(piece, register):
    """An access on another base."""
    return on_base(piece, register, piece.offset)


def reads_value(piece, base):
    """Whether a piece reads a base other than to access it and to step it."""
    if step_of(piece, base) is not None:
        return False
    return base in (piece.values if piece.is_access else piece.reads)


def distances(loop, base, room, first):
    """Before each piece, how far at most a base has moved since an access on it, or since the loop was entered if that counts
    as so far; FAR where it's farther than there is room."""
    found = [None] * len(loop.body)
    waiting = [(loop.head, first)]
    while waiting:
        index, distance = waiting.pop()
        if found[index] is None or found[index] < distance:
            found[index] = distance
            after = moved(loop.body[index], base, distance, room)
            waiting += [(other, after) for other in loop.following[index]]
    return found


def moved(piece, base, distance, room):
    """The distance after a piece."""
    if is_on(piece, base):
        return 0
    step = step_of(piece, base)
    if step is None:
        return distance
    return distance + abs(step) if distance + abs(step) <= room else FAR


def is_exact(loop, base, room):
    """Whether each access on a base comes before it has moved too far since an earlier one, or since the loop was entered."""
    return all(distance != FAR or not is_on(piece, base) for piece, distance in zip(loop.body, distances(loop, base, room, 0)))


def price_of_steps(loop, register):
    """What the masks of a data register's steps cost in a loop."""
    pieces = [piece for run in runs(loop.body) for piece in stepped([loop.body[number] for number in run])]
    ways = Ways(pieces, loop.following, {loop.head})
    return MASKS * sum(loop.weights[index] for index in costly_steps(pieces)
                       if pieces[index].operands[0] == register and not ways.raised(index))


class Hoister:
    """Takes masks out of the loops of a function."""

    def __init__(self, code, outer, names, registers, room):
        self.code, self.outer, self.names = code, outer, names
        self.registers, self.room = registers, room

    def hoisted(self):
        done = set()
        while self.improves(done):
            pass
        return self.code.pieces

    def improves(self, done):
        """Changes loops that aren't done, as far as they have nothing to do with each other; whether one changed."""
        placing, has_changed = Placing(self.code, self.names), False
        for loop in loops_of(self.code.pieces, self.outer):
            plan = None if loop.name() in done else self.plan(loop)
            if plan is None:
                done.add(loop.name())
            elif placing.place(loop, plan):
                has_changed = True
        self.code = placing.placed() if has_changed else self.code
        return has_changed

    def plan(self, loop):
        """What gains most, or None."""
        register = next((name for name in self.registers if not any(uses(piece, name) for piece in loop.body)), None)
        plans = self.plans(loop, register) if register else []
        best = max((plan for plan in plans if plan), key=lambda plan: plan.gain, default=None)
        return best if best and best.gain > 0 else None

    def plans(self, loop, register):
        """The ways to have a base in a data register, or None for a way that isn't right."""
        bases = {index: base for index, piece in enumerate(loop.body) if (base := piece.masked_base)}
        for base in sorted(set(bases.values())):
            changing = [step_of(piece, base) for piece in loop.body if base in piece.writes]
            if not changing:
                yield self.with_constant(loop, base, register)
            elif all(abs(step or FAR) <= self.room for step in changing):
                yield self.with_pointer(loop, base, register)
            else:
                yield from (self.with_derived(loop, index, register) for index in bases if bases[index] == base)

    def spared(self, loop, accesses, before):
        """What is spared in a turn by accesses without masks, less what stands before the loop."""
        return MASKS * sum(loop.weights[index] for index in accesses) - (len(before) - 1 + MASKS) * loop.outside

    def with_constant(self, loop, base, register):
        changes = {index: [on_register(piece, register)] for index, piece in enumerate(loop.body) if piece.masked_base == base}
        before = [set_to(register, base)]
        return Plan(changes, before, self.spared(loop, changes, before))

    def with_pointer(self, loop, base, register):
        changes = {index: [renamed(piece, base, register)] for index, piece in enumerate(loop.body)
                   if uses(piece, base)}
        if not self.is_equal(loop, base):
            return None
        before, accesses = [set_to(register, base)], [index for index in changes if is_on(loop.body[index], base)]
        gain = self.spared(loop, accesses, before) - price_of_steps(loop.changed(changes), register)
        return Plan(changes, before, gain, [(base, register)])

    def with_derived(self, loop, index, register):
        found = derived(loop.body, index, self.room)
        if not found or self.code.alive[loop.numbers[loop.head]] & bits(found.temporary()):
            return None
        changes = {place: [on_register(loop.body[place], register)] for place in found.accesses}
        changes.update((place, [loop.body[place], Op("addi", (register, register, str(count)), None)])
                       for place, count in found.steps.items())
        changed, before = loop.changed(changes), [*found.made, set_to(register, found.base)]
        if not is_exact(changed, register, self.room):
            return None
        price = price_of_steps(changed, register) + sum(loop.weights[place] for place in found.steps)
        return Plan(changes, before, self.spared(loop, found.accesses, before) - price)

    def is_equal(self, loop, base):
        """Whether a base may be left out for a data register that takes the same steps."""
        found = distances(loop, base, self.room, FAR)
        if any(reads_value(piece, base) and distance == FAR for piece, distance in zip(loop.body, found)):
            return False
        return is_exact(loop, base, self.room) and all(
            moved(loop.body[index], base, found[index], self.room) != FAR for index, target in loop.exits()
            if self.code.alive_out(loop, index, target) & bits((base,)))


def with_hoisted_masks(code, names, registers, room):
    """The code with masks before loops, in these data registers; `room` is the largest step. It is the same list where no
    loop changes."""
    if not registers or not leads_back(code):
        return code
    alive, out, has_changed = iter(liveness_of(blocks_of(code)).before), [], False
    for function in functions(code):
        part = Code(function.code, list(islice(alive, len(function.code))))
        hoisted = Hoister(part, function.outer, names, registers, room).hoisted()
        has_changed |= hoisted is not function.code
        out += hoisted
    return out if has_changed else code
