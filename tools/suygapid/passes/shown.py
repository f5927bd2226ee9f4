"""Which registers hold, before each piece of the code after the passes, what the debug information says of them there.

The passes move instructions, leave some out, and have data registers take the places of others. So a register is wrong from
an instruction on that should write it and doesn't, or that writes it and shouldn't, until one writes it that should; and
where one that comes later in the file has written it already."""
from functools import cached_property, reduce
from itertools import groupby
from operator import or_

from suygapid.passes.control import successors
from suygapid.passes.facts import ADDRESSES

MOVES = ("mv", "add")  # what a pass adds of these is a move


def is_put_back(piece):
    """Whether a pass sets a register to what a data register kept for it."""
    return piece.word in MOVES and piece.operands[-1] in ADDRESSES


def effect(piece, source):
    """The registers that a piece makes wrong, and those that it makes right, where it stands for one of the file, or for
    none."""
    now = piece.written_bits
    if source is None:
        return (0, now) if is_put_back(piece) else (now, 0)
    meant = source.written_bits
    return (0, now) if now == meant else (now | meant, 0)


def early(pieces, numbers, least):
    """Before each piece, the registers that one has written which comes later in the file."""
    done = []
    for piece, number, first in zip(pieces, numbers, least):
        done = [] if piece.is_mark else [(other, written) for other, written in done if other >= first]
        yield reduce(or_, (written for _, written in done), 0)
        if number is not None and not piece.is_mark:
            done.append((number, piece.written_bits))


def left_out(order, numbers, least):
    """Before each piece, the registers that should have been written since the one before it, by what was left out."""
    missing = sorted(set(range(len(order.kept))) - set(numbers), reverse=True)
    for first in least:
        found = 0
        while missing and missing[-1] < first:
            found |= order.kept[missing.pop()].written_bits
        yield found


def flowing(pieces, wrong, effects):
    """What is wrong before each piece, by what is wrong before it of itself, and by what those do from which control comes."""
    following, waiting = successors(pieces), list(range(len(pieces)))[::-1]
    while waiting:
        number = waiting.pop()
        made_wrong, made_right = effects[number]
        after = wrong[number] & ~made_right | made_wrong
        for other in following[number]:
            if other is not None and after & ~wrong[other]:
                wrong[other] |= after
                waiting.append(other)
    return wrong


class Shown:
    """What is wrong in a section, and where its labels stand."""

    def __init__(self, pieces, order):
        numbers = [order.number(piece) for piece in pieces]
        least = order.least(numbers)
        effects = [effect(piece, None if number is None else order.kept[number]) for piece, number in zip(pieces, numbers)]
        flow = flowing(pieces, list(left_out(order, numbers, least)), effects)
        self.wrong = [one | other for one, other in zip(flow, early(pieces, numbers, least))]
        self.labels = {piece.name: number for number, piece in enumerate(pieces) if piece.is_mark}
        waiting = [(number, text[:-1]) for number, text in reversed(order.soft) if text.endswith(":")]
        for index, first in enumerate([*least, len(order.kept)]):
            while waiting and waiting[-1][0] <= first:
                self.labels[waiting.pop()[1]] = index


class AllShown:
    """The same of a file, with the labels that are to stand before pieces: by a section's name, and by a piece's number. The
    code is gone through where debug information asks, and so not in a file that has none."""

    def __init__(self, pieces, orders):
        self.pieces, self.orders = pieces, orders
        self.new = {key: {} for key in pieces}

    @cached_property
    def sections(self):
        return {key: Shown(pieces, self.orders[key]) for key, pieces in self.pieces.items()}

    @cached_property
    def key_of(self):
        """By a label, its section."""
        return {name: key for key, section in self.sections.items() for name in section.labels}

    def parts(self, begin, end, named):
        """The parts, from one label to another, of what lies between two labels, in which some registers are right; None
        stands for the labels that are given. None is right where these don't stand together."""
        key = self.key_of.get(begin)
        if key is None or key != self.key_of.get(end):
            return []
        section, found = self.sections[key], []
        first, last = section.labels[begin], section.labels[end]
        for is_wrong, numbers in groupby(range(first, last), lambda number: bool(section.wrong[number] & named)):
            if not is_wrong:
                numbers = list(numbers)
                found.append((self.label(key, numbers[0]) if numbers[0] > first else None,
                              self.label(key, numbers[-1] + 1) if numbers[-1] + 1 < last else None))
        return found if first < last else [(None, None)]

    def label(self, key, number):
        return self.new[key].setdefault(number, f".Lsfi.shown{list(self.new).index(key)}.{number}")

    def wrong_with(self, label):
        """The registers that are wrong somewhere in the section of a label; in any where there is none."""
        sections = [self.sections[self.key_of[label]]] if label in self.key_of else self.sections.values()
        return reduce(or_, (wrong for section in sections for wrong in section.wrong), 0)
