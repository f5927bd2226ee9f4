"""Steps of data registers raised to accesses in earlier blocks, in code in words.

A step `addi d, d, k` directly before an access on d that is in reach needs no masks. Where each way to a step comes from
such an access, and each way from there leads to such a step or to where d isn't read again, the step goes before the access.
What stands between reads d after it's k more: the offsets of accesses and sums change by k."""
from dataclasses import dataclass

from suygapid.passes.control import predecessors, successors
from suygapid.passes.functions import functions
from suygapid.passes.stepping import costly_steps, less
from suygapid.passes.typed import has_only_base, is_free_step, may_follow_step, step_of


@dataclass
class Raised:
    """Steps of a register that are raised: what each piece becomes that changes, by its number, and the numbers of all pieces
    on the ways up."""
    name: str
    changes: dict
    ways: set

    def is_apart(self, other):
        return self.name != other.name or not self.ways & other.ways


class Ways:
    """The ways through some code, by the numbers of its pieces."""

    def __init__(self, code, following, entries):
        """`following` has for each piece those that may come after it, and `entries` those that others may come before."""
        self.code, self.entries = code, entries
        self.following = [[other for other in targets if other is not None] for targets in following]
        self.before = predecessors(self.following)

    def raised(self, number):
        """A step as it is raised, with others like it on other ways; None if it can't be."""
        step = self.code[number]
        name, count = step.operands[0], step_of(step, step.operands[0])
        found = self.way_up({number}, name, count)
        if found is None:
            return None
        steps, accesses, between = found
        changes = {place: less(self.code[place], name, count) for place in accesses | between
                   if name in self.code[place].reads}
        if None in changes.values() or not all(self.may_take_step(place, changes[place], name) for place in accesses):
            return None
        changed = {place: [step] * (place in accesses) + [piece] for place, piece in changes.items()}
        return Raised(name, {**dict.fromkeys(steps, ()), **changed}, steps | accesses | between)

    def way_up(self, steps, name, count):
        """Some steps and others like them to which the same ways lead, the accesses from which they come, and what stands
        between; None if they can't be raised."""
        alive = self.alive(name)
        while True:
            accesses = self.accesses_before(steps, name)
            between = self.between(accesses, steps, name, alive) if accesses else None
            if between is None:
                return None
            others = {place for place in between if name in self.code[place].writes}
            if not others:
                ways = accesses | between
                is_alone = all(other in ways for place in between | steps for other in self.before[place])
                return (steps, accesses, between) if is_alone else None
            if any(step_of(self.code[place], name) != count for place in others):
                return None
            steps = steps | others

    def accesses_before(self, steps, name):
        """The last accesses on a register on the ways to some steps; None where a way has none."""
        found, seen, waiting = set(), set(steps), list(steps)
        while waiting:
            place = waiting.pop()
            if place in self.entries or not self.before[place]:
                return None
            for other in self.before[place]:
                if other in steps or name in self.code[other].writes:
                    return None
                if has_only_base(self.code[other], name):
                    found.add(other)
                elif other not in seen:
                    waiting.append(other)
                seen.add(other)
        return found

    def between(self, accesses, steps, name, alive):
        """The pieces on the ways from some accesses to steps or to others, and to where the register isn't read again; None
        where such an access comes again, or control from elsewhere."""
        found, waiting = set(), [other for access in accesses for other in self.following[access]]
        while waiting:
            place = waiting.pop()
            if place in found or place in steps or place not in alive:
                continue
            if place in accesses or place in self.entries:
                return None
            found.add(place)
            waiting += [] if name in self.code[place].writes else self.following[place]
        return found

    def alive(self, name):
        """The pieces before which a register holds what may be read."""
        found = {number for number, piece in enumerate(self.code) if name in piece.reads}
        waiting = list(found)
        while waiting:
            for other in self.before[waiting.pop()]:
                if other not in found and name not in self.code[other].writes:
                    found.add(other)
                    waiting.append(other)
        return found

    def may_take_step(self, place, piece, name):
        """Whether a step may stand before an access that becomes this piece: no other step stands there."""
        earlier = self.code[place - 1] if place else None
        return may_follow_step(piece, name) and not (earlier and is_free_step(earlier, self.code[place]))


def raised_apart(code, steps, function, stay):
    """The steps of these numbers as they are raised, of which none changes the ways of another. Those that can't be are added
    to the steps that stay, by identity."""
    ways, found = Ways(code, successors(code), function.entries(code)), []
    for number in steps:
        raised = ways.raised(number)
        if raised is None:
            stay.add(id(code[number]))
        elif all(raised.is_apart(other) for other in found):
            found.append(raised)
    return found


def raised_in(function, registers):
    """The code of a function with the steps of some registers raised, as far as that is possible."""
    code, stay = function.code, set()
    while steps := [number for number in costly_steps(code) if code[number].written in registers and id(code[number]) not in stay]:
        changes = {number: pieces for raised in raised_apart(code, steps, function, stay) for number, pieces in raised.changes.items()}
        code = [piece for number, old in enumerate(code) for piece in changes.get(number, [old])]
    return code


def with_raised_steps(code, registers):
    if not costly_steps(code):
        return code
    return [piece for function in functions(code) for piece in raised_in(function, registers)]
