"""How far outside the objects of a program the base of an access may lie.

A load or store at `N(a)` becomes one on the masked a. Where a lies in the data region the mask changes nothing; but
compilers also reach an object from a base that lies outside it, by an offset that leads back. So there is room at both
ends of the region, as much as the offsets of the program can bridge, and every base that leads to an object lies in
the region."""
from dataclasses import dataclass


ALIGNMENT = 16


@dataclass(frozen=True)
class Margins:
    """How far below and above an object a base may lie."""
    below: int = 0
    above: int = 0


def margins(ops, step=0):
    """The room that the loads and stores of a program need. The stack pointer always lies in the region. A pointer may lie
    one step beside such a base."""
    offsets = [op.offset for op in ops if op.is_access and op.base != "sp"]
    below, above = max([0, *offsets]), max([0, *(-offset for offset in offsets)])
    return Margins(rounded(below + step), rounded(above + step))


def rounded(count):
    return count + -count % ALIGNMENT
