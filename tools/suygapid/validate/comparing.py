"""What has to hold of the registers where two stretches begin, so that a value of the rewritten code is equal to one of the
compiler's.

A requirement is an equation, of a sum over the rewritten code's registers with one over the compiler's, or that an address is
near one that the compiler's code has accessed."""
from functools import lru_cache
from math import gcd
from typing import NamedTuple, Optional

from suygapid.validate.stretches import DATA_REGISTERS
from suygapid.validate.values import COMMUTATIVE, MASK, ZERO, Value, of, replaced, signed

UNSETTLED = ("load", "lost", "after", "kept")  # atoms that no register holds where a stretch begins


class Equation(NamedTuple):
    """`right` is equal to `left`; where `accessed` is an address that is accessed later, it may be so but for masks."""
    right: Value
    left: Value
    accessed: Optional[Value] = None


class Near(NamedTuple):
    """An address, in the compiler's registers, lies beside one that was accessed."""
    address: Value


def is_same(equation):
    """Whether an equation says that a register has one value in both codes."""
    right, left = equation.right.only_atom(), equation.left.only_atom()
    return right is not None and left is not None and (right[0], left[0]) == ("right", "left") and right[1] == left[1]


def renamed(value):
    """A value of the rewritten code as it is where nothing is masked and registers are those of the compiler's."""
    return replaced(value, renamed_atom)


def renamed_atom(atom):
    if atom[0] == "right":
        return of("left", atom[1])
    if atom[0] in ("data", "code"):
        return renamed(atom[1])
    if any(isinstance(part, Value) for part in atom):
        return of(*(renamed(part) if isinstance(part, Value) else part for part in atom))
    return None


def is_made(atom):
    """Whether an atom is what an instruction makes of values."""
    return atom[0] not in ("data", "code") and any(isinstance(part, Value) for part in atom)


@lru_cache(maxsize=1 << 16)
def difference(right, left):
    """The sums of both sides that are left once equal parts are taken away, as a right and a left one, and the equations of
    the parts; None where the sides can't be equal."""
    rest, equations = right.minus(left), []
    for atom in [atom for atom in right.terms if is_made(atom) and atom in rest.terms]:
        factor = rest.terms[atom]
        others = [other for other in left.terms if other[0] == atom[0] and (factor + rest.terms.get(other, 0)) & MASK == 0]
        found = {other: parts for other in others if (parts := equal_parts(atom, other)) is not None}
        if not found:
            return None
        other = min(found, key=lambda it: how_many_differ(found[it]))
        rest = rest.minus(of(*atom).times(factor)).plus(of(*other).times(factor))
        equations += found[other]
    if any(is_made(atom) or atom[0] in UNSETTLED for atom in rest.terms):
        return None
    return (*sides(rest), equations)


def how_many_differ(equations):
    return sum(not is_same(equation) for equation in equations)


def equal_parts(atom, other):
    """The equations by which two results of one instruction are equal, or None: of two orders the one that wants less."""
    orders = (other[1:], other[:0:-1]) if atom[0] in COMMUTATIVE else (other[1:],)
    found = [equations for parts in orders if (equations := equal_pairs(atom[1:], parts)) is not None]
    return min(found, key=how_many_differ, default=None)


def equal_pairs(rights, lefts):
    """The equations by which values are equal to others, or None."""
    found = []
    for right, left in zip(rights, lefts):
        rest = difference(right, left)
        if rest is None:
            return None
        found += rest[2] + parted(*rest[:2])
    return found


def sides(rest):
    """A sum that is 0, as a sum of what the rewritten code has and one of all else."""
    right = {atom: factor for atom, factor in rest.terms.items() if atom[0] in ("right", "data", "code")}
    left = {atom: -factor & MASK for atom, factor in rest.terms.items() if atom not in right}
    return Value(0, right), Value(-rest.number, left)


def parted(right, left):
    """An equation as one of each register that both sides have alike and one of the rest, or itself where that rest would be
    of one side alone."""
    found, rest = [], Equation(right, left)
    for atom, factor in right.terms.items():
        twin = ("left", atom[1])
        if atom[0] == "right" and atom[1] not in DATA_REGISTERS[1:] and left.terms.get(twin) == factor:
            found.append(Equation(of(*atom), of(*twin)))
            rest = Equation(rest.right.minus(of(*atom).times(factor)), rest.left.minus(of(*twin).times(factor)))
    if rest.right == ZERO and rest.left != ZERO:
        return [Equation(right, left)]
    return found + [divided(rest)] * (rest.right != ZERO)


def divided(equation):
    """An equation of multiples of one number as that of what they are multiples of, from which it follows."""
    numbers = [signed(count) for value in equation[:2] for count in (value.number, *value.terms.values())]
    common = gcd(*numbers)
    if common < 2:
        return equation
    right, left = (Value(signed(value.number) // common, {atom: signed(count) // common & MASK for atom, count in value.terms.items()})
                   for value in equation[:2])
    return Equation(right, left)


def without_mask(right, left):
    """A sum with one masked value taken as it is without masks, and what that value is if the sum is equal to another one;
    None where nothing is masked."""
    atom = next((atom for atom, factor in right.terms.items() if atom[0] == "data" and factor in (1, MASK)), None)
    if atom is None:
        return None
    factor = right.terms[atom]
    rest = right.minus(of(*atom).times(factor))
    return rest.plus(atom[1], factor), left.minus(renamed(rest)).times(factor)


def distance(value, other):
    """How far a value lies beyond another, or None where that isn't known."""
    rest = value.minus(other)
    return None if rest.terms else rest.number - (1 << 32) * (rest.number >> 31)

