"""The order of instructions in code in words: a 16-bit form that would have a word alone takes 32 bits, so forms are put side
by side where that changes no result. A step stays directly before the access beside which it needs no masks."""
from functools import cached_property

from suygapid.passes.dependences import WINDOW, needed_before, runs
from suygapid.passes.typed import is_free_step
from suygapid.passes.word_places import part_sizes

SHORT = 2


def units_of(ops):
    """The indexes of a run's instructions, in units that stay together."""
    found = []
    for index, op in enumerate(ops):
        if index and is_free_step(ops[index - 1], op):
            found[-1].append(index)
        else:
            found.append([index])
    return found


class Pairer:
    """Puts the units of a run in order."""

    def __init__(self, ops):
        self.ops, self.units = ops, units_of(ops)
        following = [*ops[1:], None]
        self.sizes = [[size for index in unit for size in part_sizes(ops[index], following[index])] for unit in self.units]

    @cached_property
    def needed(self):
        """For each unit those that have to stay before it."""
        unit_of, needed = {index: number for number, unit in enumerate(self.units) for index in unit}, needed_before(self.ops)
        return [{unit_of[other] for index in unit for other in needed[index]} - {number}
                for number, unit in enumerate(self.units)]

    def paired(self):
        waiting, order, half = list(range(len(self.units))), {}, False
        while waiting:
            chosen = waiting[0] if not half or self.sizes[waiting[0]][0] == SHORT else self.next_short(waiting, order.keys())
            waiting.remove(chosen)
            order[chosen] = True
            for size in self.sizes[chosen]:
                half = size == SHORT and not half
        return [self.ops[index] for unit in order for index in self.units[unit]]

    def next_short(self, waiting, placed):
        """The first unit that is one form of 16 bits and may come next, or else the first of all."""
        first = self.units[waiting[0]][0]
        for unit in waiting:
            if self.units[unit][-1] - first >= WINDOW:
                break
            if self.sizes[unit] == [SHORT] and self.needed[unit] <= placed:
                return unit
        return waiting[0]


def with_pairs(code):
    out = []
    for run in runs(code):
        ops = [code[number] for number in run]
        out += ops if len(ops) <= 2 else Pairer(ops).paired()  # the first is taken first
    return out
