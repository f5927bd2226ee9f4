"""What registers hold, as sums of atoms with factors, modulo 2**32. Atoms are tuples:

- ("left", n) and ("right", n): register n of the compiler's code and of the rewritten one where a stretch of code begins
- ("address", name): of a symbol; ("low", name, number): in rewritten code the part of it, plus a number, that `%lo` is
- ("box", n): what the sandbox's own register n holds
- ("load", n): what the n-th access of the compiler's stretch loads
- ("data", value), ("code", value): a value that is masked into the data region, into the code region
- ("after", n): register n after a call, in both codes alike; ("lost", n): after a call that has overwritten it
- ("kept", n): in a function that is called, register n, which it puts back
- (word, value, value): what another instruction makes of two values"""
from functools import lru_cache

MASK = (1 << 32) - 1
COMMUTATIVE = ("and", "or", "xor", "mul", "mulh", "mulhu")
DATA_BASE, DATA_MASK, CODE_BASE, CODE_MASK = (("box", number) for number in (26, 27, 24, 25))


class Value:
    """A sum: a number, and atoms with their factors."""
    __slots__ = ("number", "terms", "key")

    def __init__(self, number=0, terms=None):
        self.number = number & MASK
        self.terms = terms or {}
        self.key = (self.number, frozenset(self.terms.items()))

    def __eq__(self, other):
        return self.key == other.key

    def __hash__(self):
        return hash(self.key)

    def __repr__(self):
        parts = [f"{signed(factor)}*{atom}" for atom, factor in self.terms.items()]
        return " + ".join(parts + ([str(signed(self.number))] if self.number or not parts else []))

    def plus(self, other, factor=1):
        terms = dict(self.terms)
        for atom, count in other.terms.items():
            total = (terms.get(atom, 0) + factor * count) & MASK
            if total:
                terms[atom] = total
            else:
                terms.pop(atom, None)
        return Value(self.number + factor * other.number, terms)

    def minus(self, other):
        return self.plus(other, MASK)

    def times(self, factor):
        return Value(self.number * factor, {atom: count * factor & MASK for atom, count in self.terms.items()
                                            if count * factor & MASK})

    def is_number(self):
        return not self.terms

    def only_atom(self):
        """The atom that the value is, or None."""
        if self.number or len(self.terms) != 1:
            return None
        (atom, factor), = self.terms.items()
        return atom if factor == 1 else None


def signed(number):
    return number - (1 << 32) if number >> 31 else number


def number(value):
    return Value(value)


@lru_cache(maxsize=1 << 16)
def of(*atom):
    return Value(0, {atom: 1})


ZERO = Value()


def computed(word, first, second):
    """What an instruction makes of two values."""
    if word == "add":
        return first.plus(second)
    if word == "sub":
        return first.minus(second)
    if word == "sll" and second.is_number():
        return first.times(1 << (second.number & 31))
    if word in ("and", "or"):
        found = masked(word, first, second)
        if found is not None:
            return found
    if word in ("or", "xor", "srl", "sra") and second == ZERO:
        return first
    if word in ("or", "xor") and first == ZERO:
        return second
    return of(word, first, second)


def masked(word, first, second):
    """The value of an instruction that masks an address, or None. The first of two that mask one of the data counts as both: where
    masks are single it is alone, and elsewhere the checker sees to the second."""
    mask, atom = second.only_atom(), first.only_atom()
    if word == "and" and mask == DATA_MASK:
        return of("data", inside(first))
    if word == "and" and mask == CODE_MASK:
        return of("in code", inside(first))
    if word != "or" or not atom:
        return None
    if mask == DATA_BASE and atom[0] == "data":
        return of(*DATA_BASE) if atom[1] == ZERO else first
    if mask == CODE_BASE and atom[0] == "in code":
        return of(*CODE_BASE) if atom[1] == ZERO else of("code", atom[1])
    return None


def inside(value):
    """A value that has the same masked value and no mask itself: the masks keep the low bits, which sums keep as well."""
    for atom, factor in value.terms.items():
        if atom[0] == "data" and factor == 1:
            return value.minus(of(*atom)).plus(atom[1])
    return value


def replaced(value, change):
    """A value with other values in the place of its atoms. `change` answers one, or None."""
    result = Value(value.number)
    for atom, factor in value.terms.items():
        other = change(atom)
        result = result.plus(of(*atom) if other is None else other, factor)
    return result


def leaves(value):
    """The atoms of which a value is made in the end."""
    for atom in value.terms:
        parts = [part for part in atom[1:] if isinstance(part, Value)]
        for part in parts:
            yield from leaves(part)
        if not parts:
            yield atom
