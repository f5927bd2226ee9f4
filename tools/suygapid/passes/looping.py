"""Puts what a loop becomes in its place in a function's code: its pieces, what stands before it, and what is done where it's
left. Control enters the loop by what stands before it alone."""

from suygapid.passes.control import labels_of
from suygapid.passes.facts import EVERYTHING, bits
from suygapid.passes.instructions import Op, replace
from suygapid.passes.program import Mark

ALL = bits(EVERYTHING)


def going_to(piece, target):
    return replace(piece, operands=(*piece.operands[:-1], target))


class Code:
    """A function's code, and for each piece which registers may be read from there on, as bits."""

    def __init__(self, pieces, alive):
        self.pieces, self.alive = pieces, alive
        self.at = labels_of(pieces)

    def alive_at(self, target):
        """Which may be read from a label on."""
        return self.alive[self.at[target]] if target in self.at else ALL

    def alive_after(self, number):
        """Which may be read where control goes on from a piece to the one after it."""
        return self.alive[number + 1] if number + 1 < len(self.pieces) else ALL

    def alive_out(self, loop, index, target):
        """Which may be read where a loop is left."""
        return self.alive_after(loop.numbers[index]) if target is None else self.alive_at(target)

    def place_apart(self, loop):
        """A place that control reaches by jumps alone, after the loop if there is one; None if there is none."""
        places = [number + 1 for number, piece in enumerate(self.pieces) if not piece.goes_on]
        return next((place for place in places if place > loop.numbers[-1]), places[-1] if places else None)


class Placing:
    """Puts loops in their places that have nothing to do with each other."""

    def __init__(self, code, names):
        self.code, self.names = code, names
        self.pieces, self.changed = list(code.pieces), set()  # the numbers of those that may have changed
        self.before, self.after = {}, {}  # what is put before and after some pieces, by number
        self.apart = {}  # what control reaches by jumps alone, with what is alive there, by the number that it's put before

    def place(self, loop, plan):
        """Puts what a plan makes of a loop in its place, unless a way to it or out of it has none, or has changed; whether
        it did."""
        apart, jumps = self.code.place_apart(loop), self.jumps_to(loop)
        moves = {exit: self.moves(plan.back, loop, *exit) for exit in loop.exits()}
        has_places = apart is not None or not self.is_entered_apart(loop, jumps) and not any(
            found for (_, target), found in moves.items() if target is not None)
        if not has_places or not self.changed.isdisjoint([*loop.numbers, *jumps]):
            return False
        self.changed.update(loop.numbers, jumps)
        for index, pieces in plan.changes.items():
            number = loop.numbers[index]
            self.pieces[number], *self.after[number] = pieces
        for (index, target), found in moves.items():
            self.lead_out(loop, index, target, found, apart)
        self.lead_in(loop, jumps, plan.before, apart)
        return True

    def moves(self, back, loop, index, target):
        """What sets the registers back that may be read where a loop is left."""
        alive = self.code.alive_out(loop, index, target)
        return [Op("mv", pair, None) for pair in back if alive & bits((pair[0],))]

    def lead_out(self, loop, index, target, moves, apart):
        """Puts these where the loop is left."""
        number = loop.numbers[index]
        if target is None:
            self.after[number] = [*self.after.get(number, []), *moves]
        elif moves:
            way = self.names.fresh("leave..1")
            pieces = [Mark(way, True), *moves, Op("j", (target,), self.pieces[number].place)]
            self.set_apart(apart, pieces, self.code.alive_at(target))
            self.pieces[number] = going_to(self.pieces[number], way)

    def lead_in(self, loop, jumps, before, apart):
        """Puts what goes before the loop on each way to it from elsewhere."""
        head, is_apart = loop.numbers[loop.head], self.is_entered_apart(loop, jumps)
        if self.follows_itself(loop) and not is_apart:
            self.before[jumps[0]] = before
            return
        start = self.names.fresh("enter..1")
        for number in jumps:
            self.pieces[number] = going_to(self.pieces[number], start)
        if is_apart:
            self.set_apart(apart, [Mark(start, True), *before, Op("j", (loop.name(),), None)], self.code.alive[head])
        else:
            self.before[head] = [Mark(start, True)] * bool(jumps) + before

    def jumps_to(self, loop):
        """The numbers of the pieces elsewhere that go to a loop's head."""
        inside = set(loop.numbers)
        return [number for number, piece in enumerate(self.code.pieces)
                if piece.is_goto and piece.operands[-1] == loop.name() and number not in inside]

    def follows_itself(self, loop):
        """Whether control goes on to a loop's head from the loop."""
        before = loop.numbers[loop.head] - 1
        return before in loop.numbers and self.code.pieces[before].goes_on

    def is_entered_apart(self, loop, jumps):
        """Whether what goes before a loop can stand neither directly before its head nor before the only jump there."""
        return self.follows_itself(loop) and not (len(jumps) == 1 and self.code.pieces[jumps[0]].is_jump)

    def set_apart(self, place, pieces, alive):
        self.apart.setdefault(place, []).extend((piece, alive) for piece in pieces)

    def placed(self):
        """The code with these loops."""
        lines = []
        for number, piece in enumerate(self.pieces):
            lines += self.apart.get(number, [])
            lines += [(other, self.code.alive[number]) for other in [*self.before.get(number, []), piece]]
            lines += [(other, self.code.alive_after(number)) for other in self.after.get(number, [])]
        return Code(*map(list, zip(*lines, *self.apart.get(len(self.pieces), []))))
