"""What has to hold where stretches begin, so that all in them that has to be equal is. It is followed back from each use of a
value to what made it."""
from dataclasses import dataclass

from suygapid.validate.comparing import (DATA_REGISTERS, Equation, Near, difference, distance, is_same, parted, without_mask)
from suygapid.validate.stretches import STACK
from suygapid.validate.values import ZERO, of, replaced

RESERVED = (3, 4, 24, 25, 26, 27, 31)  # registers that the compiler's code leaves alone
MOST_COMPLAINTS = 100
MOST_NUMBERS = 40  # of one requirement at one place: in a loop where a sum moves otherwise, there's no end of them


@dataclass(frozen=True)
class Origin:
    """Which of the compiler's instructions wants a value, and for what."""
    place: object
    what: str


class Requirements:
    """Follows what is wanted back, until each is what it has to be or can't be. `below` and `above` say how far beside an
    object the linker leaves room, where masks change no address."""

    def __init__(self, walk, below, above):
        self.walk, self.below, self.above = walk, below, above
        self.waiting, self.told = [], set()
        self.numbers = {}  # those of requirements that differ by them alone
        for want in walk.wants:
            self.settle(want.node, want.right, want.left, want.accessed, Origin(want.place, want.what))
        while self.waiting and len(walk.complaints) < MOST_COMPLAINTS:
            self.follow(*self.waiting.pop())

    def fail(self, node, origin):
        """Tells a value that isn't what it has to be, once for each of the compiler's instructions."""
        if origin.place not in self.told:
            self.told.add(origin.place)
            self.walk.complain(origin.place, f"{origin.what} is another one in the rewritten code, by what it does from "
                                             f"{node.right.start.section}+{node.right.start.offset:#x} on")

    def settle(self, node, right, left, accessed, origin):
        """Takes what has to be equal at some point of a node's stretches."""
        while (bare := without_mask(right, left)) is not None:
            right, address = bare
            if not self.is_near(node, address, accessed, origin):
                self.fail(node, origin)
                return
        found = difference(right, left)
        if found is None:
            self.fail(node, origin)
            return
        for equation in parted(*found[:2]):
            self.require(node, equation._replace(accessed=self.accessed(node, equation, accessed)), origin)
        for equation in found[2]:
            self.settle(node, *equation, origin)

    def is_beside(self, address, other):
        count = distance(address, other)
        return count is not None and -self.below <= count <= self.above

    def is_near(self, node, address, accessed, origin):
        """Whether masks don't change an address. Where nothing in the stretches shows it, it's required where they begin."""
        places = [access.address for access in node.left.accesses]
        if accessed is not None:
            places.append(accessed)
        if any(self.is_beside(address, place) for place in [*places, *node.left.stacks]):
            return True
        atoms = list(address.terms)
        if len(atoms) == 1 and atoms[0][0] == "address" and self.is_beside(address, of(*atoms[0])):
            return True
        if not all(atom[0] in ("left", "address") for atom in atoms):
            return False
        self.require(node, Near(address), origin)
        return True

    def accessed(self, node, equation, later):
        """The nearest address by which a data register may be taken as it is without masks, or None."""
        if is_same(equation) or not any(atom[0] == "right" and atom[1] in DATA_REGISTERS for atom in equation.right.terms):
            return None
        places = [access.address for access in node.left.accesses] + ([later] if later is not None else [])
        found = [place for place in places if self.is_beside(equation.left, place)]
        return min(found, key=lambda place: abs(distance(equation.left, place)), default=None)

    def require(self, node, requirement, origin):
        """Requires something where a node's stretches begin."""
        if isinstance(requirement, Equation):
            if requirement.right == ZERO == requirement.left:
                return
            if requirement.right == ZERO and not any(atom[0] == "left" for atom in requirement.left.terms):
                self.fail(node, origin)
                return
        if requirement in node.required:
            return
        node.required.add(requirement)
        kind = id(node), *(frozenset(value.terms.items()) for value in requirement[:2])
        numbers = self.numbers.setdefault(kind, set())
        numbers.add(tuple(value.number for value in requirement[:2]))
        if len(numbers) > MOST_NUMBERS:
            self.fail(node, origin)
        else:
            self.waiting.append((node, requirement, origin))

    def follow(self, node, requirement, origin):
        """Takes a requirement to the ends of the stretches before it."""
        if node.is_entry and not self.holds_at_entry(requirement):
            self.fail(node, origin)
        for edge in node.incoming:
            def at_end(value, edge=edge):
                return None if value is None else replaced(value, lambda atom: value_of(edge, atom))

            if isinstance(requirement, Near):
                address = at_end(requirement.address)
                if not self.is_near(edge.source, address, None, origin):
                    self.fail(edge.source, origin)
            else:
                self.settle(edge.source, *map(at_end, requirement), origin)

    def holds_at_entry(self, requirement):
        """Where control comes from elsewhere, the registers that the compiler's code uses have one value in both codes."""
        if isinstance(requirement, Near):
            return self.is_beside(requirement.address, of("left", STACK))
        return is_same(requirement) and next(iter(requirement.left.terms))[1] not in RESERVED


def value_of(edge, atom):
    """What a register holds at the end of an edge; None for other atoms."""
    if atom[0] in ("left", "right"):
        return (edge.left if atom[0] == "left" else edge.right)[atom[1]]
    return None
