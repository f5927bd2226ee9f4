"""Fits the code into bundles so that few nops run.

An expansion that doesn't fit in the rest of its bundle goes into the next one; a label begins a
bundle, and a call ends one. `as` fills what is left by nops, and they run. So this pass chooses

- which instructions take 32 bits though they have a 16-bit form: this costs no step,
- the order of the instructions between two labels, branches or calls that don't need each other's
  results,
- a jump over a large gap, and nops of 32 bits, and one of 16, in any other,
- branches before a gap to be inverted: `beq x, out` and a gap before the label `loop` become `bne
  x, loop` and `j out`.

It goes through the code with the cheapest way to each place in the bundle. Steps in loops count
more."""
from functools import lru_cache

from suygapid.passes.control import labels_of, weights
from suygapid.passes.dependences import runs
from suygapid.passes.fitting import BUNDLE, NO_GAP, PLACES, STEP, Step, gap_between, steps_of
from suygapid.passes.instructions import Op, replace
from suygapid.passes.ordering import COST, FIRST, MOVED, Order, bounds, choices_of, rank, ways_over
from suygapid.passes.placement import inverted
from suygapid.passes.program import Mark
from suygapid.passes.sizes import expansions, number_parts

COMMUTATIVE = ("add", "and", "or", "xor")
REORDERED = frozenset((*COMMUTATIVE, "mv"))


def shortened(piece):
    """An instruction that has a 16-bit form when its operands are in another order, and a copy
    in the form that has one: `add` of zero."""
    if piece.word not in REORDERED:
        return piece
    if piece.word == "mv" and "zero" not in piece.operands and piece.operands[0] != "sp":
        return replace(piece, word="add", operands=(piece.operands[0], "zero", piece.operands[1]))
    if piece.word != "mv" and piece.operands[0] == piece.operands[2]:
        target, left, right = piece.operands
        return replace(piece, operands=(target, right, left))
    return piece


@lru_cache(maxsize=None)
def table_of(units, call, weight):
    """The steps that place an instruction, by the place before it."""
    return {place: [(step.end, step.cost, step) for step in steps_of(units, call, place, weight)]
            for place in PLACES}


bounds_of = lru_cache(maxsize=None)(bounds)


class Packer:
    def __init__(self, code, image_format, names):
        self.code, self.format, self.names = code, image_format, names
        self.weights = weights(code)
        self.labels = labels_of(code)

    def packed(self):
        ways, reached = {0: FIRST}, True
        for run in runs(self.code):
            first, last = self.code[run[0]], self.code[run[-1]]
            weight = self.weights[run[0]] if reached else 0
            if first.is_mark:
                ways = self.pass_label(ways, run[0], weight)
            else:
                ways = self.pass_run(ways, run, weight)
            reached = last.goes_on
        return self.written(choices_of(min(ways.values(), key=rank)))

    def pass_label(self, ways, number, weight):
        """The cheapest way to a label, which begins a bundle. What runs into it from before it
        runs as often as the less frequent of both."""
        weight = min(weight, self.weights[number - 1]) if number else weight
        turned = self.weight_of_turned(number)
        found = []
        for place, way in ways.items():
            gap = gap_between(place, BUNDLE) if place else NO_GAP
            cost, waste = gap.steps() * weight, gap.size()
            step = Step(0, cost * STEP + waste, gap if weight else NO_GAP)
            if turned is not None and gap.size() >= 4 and turned < cost:
                step = Step(0, turned * STEP + waste, turned=True)
            found.append((way[COST] + step.cost, way[MOVED], number, step, way))
        return {0: min(found, key=rank)}

    def weight_of_turned(self, number):
        """What it costs to invert the branch before a label: a jump where it went on to. None
        where there is none."""
        piece = self.code[number - 1] if number else None
        if piece is None or piece.is_mark or not piece.is_branch or piece.operands[-1] not in self.labels:
            return None
        return self.weights[self.labels[piece.operands[-1]]]

    def pass_run(self, ways, run, weight):
        """The cheapest ways to each place after a run."""
        ops = [self.code[number] for number in run]
        kinds = [(expansions(op, self.format), op.is_call) for op in ops]
        tables = [table_of(*kind, weight) for kind in kinds]
        return ways_over(ways, run, Order(ops, kinds), tables, bounds_of(weight))

    def written(self, choices):
        """The code as it was chosen."""
        out = []
        for number, step in choices:
            piece = self.code[number]
            if step.turned:
                branch = out.pop()
                out += [inverted(branch, piece.name), Op("j", branch.operands[-1:], branch.place)]
            else:
                out += self.filled(step.gap, piece) + self.filled(step.second, piece)
            out.append(replace(piece, wide=True) if step.wide else piece)
        return out

    def filled(self, gap, after):
        """What fills a gap: a jump to the label after it or to a new one, or nops."""
        if gap.has_jump():
            name = after.name if after.is_mark else self.names.fresh("next..1")
            jump = Op("j", (name,), None)
            return [jump] if after.is_mark else [jump, Mark(name, True)]
        size = gap.size()
        return [Op("nop", (), None)] * (size % 4 == 2) + [Op("nop", (), None, wide=True)] * (size // 4)


def with_parts(code):
    """The code with each `li` as the instructions that it stands for."""
    return [part for piece in code
            for part in ([piece] if piece.is_mark or piece.word != "li" else number_parts(piece))]


def packed(code, image_format, names):
    return Packer([shortened(piece) for piece in with_parts(code)], image_format, names).packed()
