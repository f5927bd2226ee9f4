"""The ways in which an instruction, or a label, fits into the bundle that is begun, and what each
costs."""
from typing import NamedTuple

from suygapid.passes.sizes import BUNDLE

STEP = 250  # what a step outside of loops counts, in bytes of code
JUMP = 2  # what a jump over a gap counts: it is one step, but takes a processor longer than a nop does
PLACES = range(0, BUNDLE, 2)


def nops(size):
    """How many nops fill a gap: those of 32 bits, and one of 16."""
    return (size + 2) // 4


class Gap(NamedTuple):
    """Bytes of a bundle that no instruction of the program takes."""
    start: int
    end: int

    def size(self):
        return self.end - self.start

    def has_jump(self):
        """Whether a jump over it, to the next bundle, is better than nops."""
        return self.end == BUNDLE and JUMP < nops(self.size())

    def steps(self):
        return JUMP if self.has_jump() else nops(self.size())


NO_GAP = Gap(0, 0)


class Step(NamedTuple):
    """One way to place a piece: the place in the bundle where it ends, what it costs, the gap
    before it, whether it has 32 bits, and the gap in the next bundle before it if it's a call.
    `turned` says that a branch before the gap is inverted."""
    end: int
    cost: int
    gap: Gap = NO_GAP
    wide: bool = False
    second: Gap = NO_GAP
    turned: bool = False


def gap_between(start, end):
    return Gap(start, end) if start < end else NO_GAP


def begin(place, size, call):
    """The ways to begin an expansion at or after a place in a bundle: the gaps that it takes,
    and where it begins."""
    target = BUNDLE - size if call else place
    if place <= target and target + size <= BUNDLE:
        yield gap_between(place, target), NO_GAP, target
    if place:
        target = BUNDLE - size if call else 0
        yield gap_between(place, BUNDLE), gap_between(0, target), target


def steps_of(units, call, place, weight):
    """The ways to place an instruction's expansions, which runs `weight` times. Of two, only
    the first one's gap is chosen here."""
    first, *others = units
    for size in first:
        for gap, second, start in begin(place, size, call):
            end, more = start + size, 0
            for sizes in others:
                if end + sizes[0] > BUNDLE:
                    more, end = more + (BUNDLE - end) // 2, 0
                end += sizes[0]
            waste = size - first[0] + gap.size() + second.size()
            cost = (gap.steps() + second.steps() + more) * weight * STEP + waste
            yield Step(end % BUNDLE, cost, gap, size != first[0], second)


def cost_between(start, end, weight):
    """What it costs at most to come from a place in a bundle to another by nops."""
    if start <= end:
        return nops(end - start) * weight * STEP + end - start
    return cost_between(start, BUNDLE, weight) + cost_between(0, end, weight)
