"""The order of the instructions of a run, and the ways to place them: a search that goes on from
the cheapest beginnings."""
from suygapid.passes.dependences import WINDOW, needed_before
from suygapid.passes.fitting import PLACES, cost_between

WAYS = 24  # how many beginnings of a run's order are kept
CHOICES = 6  # how many of the instructions that may come next are tried

# A cheap way to a place in the bundle is (cost, moved, number, step, way): what it costs, how far
# it is from the compiler's order, the last piece and how that is placed, and the way to it.
COST, MOVED, NUMBER, STEP, BEFORE = range(5)
FIRST = (0, 0, None, None, None)


def rank(way):
    return way[:2]


def choices_of(way):
    """The numbers of the pieces on a way, each with how it is placed."""
    found = []
    while way[STEP] is not None:
        found.append((way[NUMBER], way[STEP]))
        way = way[BEFORE]
    return found[::-1]


class Order:
    """In which order the instructions of a run may stand. What is done is written as the number
    of the first that isn't, and bits, of which bit n says that the n-th after that is done."""

    def __init__(self, ops, kinds):
        needed = needed_before(ops)
        self.needed = [sum(1 << WINDOW - (index - other) for other in earlier)
                       for index, earlier in enumerate(needed)]
        self.kinds = kinds
        self.needing = [set() for _ in ops]  # those that need each
        for index, earlier in enumerate(needed):
            for other in earlier:
                self.needing[other].add(index)
        self.known = {}

    def next(self, done):
        """The first instructions that may come next, each with what is done after it."""
        if done not in self.known:
            self.known[done] = [(done[0] + offset, after(done, offset)) for offset in self.ready(*done)]
        return self.known[done]

    def ready(self, first, bits):
        """Those that need nothing more. Of two that are placed alike the later isn't tried first,
        if what needs it needs the other one, too: they may change places in what comes of it."""
        found = []
        for offset in range(min(WINDOW, len(self.needed) - first)):
            index = first + offset
            if bits >> offset & 1 or self.needed[index] >> WINDOW - offset & ~bits:
                continue
            if not any(self.is_as_good(first + other, index) for other in found):
                found.append(offset)
                if len(found) == CHOICES:
                    break
        return found

    def is_as_good(self, index, later):
        return self.kinds[index] == self.kinds[later] and self.needing[later] <= self.needing[index]


def after(done, offset):
    """What is done after one more is, counted from the first that wasn't."""
    first, bits = done
    bits |= 1 << offset
    passed = (~bits & bits + 1).bit_length() - 1
    return first + passed, bits >> passed


def ways_over(ways, numbers, order, tables, bounds):
    """The cheapest ways to each place after a run, from those before it. The instructions have
    numbers, and tables with the steps from each place, each after where it ends and its cost. `bounds` says what nops would cost from
    one place to another."""
    found = {(0, 0): ways}
    for _ in numbers:
        found = kept(longer(found, numbers, order, tables), bounds)
    [final] = found.values()
    return final


def longer(found, numbers, order, tables):
    """The ways with one instruction more, by what is done and by place."""
    result = {}
    for done, ways in found.items():
        for moved, (index, key) in enumerate(order.next(done)):
            table, number = tables[index], numbers[index]
            there = result.setdefault(key, {})
            for place, way in ways.items():
                cost_before, moved_now = way[COST], way[MOVED] + moved
                for end, added, step in table[place]:
                    cost, other = cost_before + added, there.get(end)
                    if other is None or cost < other[0] or cost == other[0] and moved_now < other[1]:
                        there[end] = cost, moved_now, number, step, way
    return result


def kept(found, bounds):
    """The cheapest ways. One that nops would reach more cheaply is left out: what comes after it
    fits as well without them."""
    entries = []
    for done, ways in found.items():
        cost, cheapest = min((way[COST], place) for place, way in ways.items())
        bound = bounds[cheapest]
        entries += [(way[COST], way[MOVED], done, place, way) for place, way in ways.items()
                    if place == cheapest or way[COST] < cost + bound[place]]
    if len(entries) > WAYS:
        entries.sort()
    result = {}
    for _, _, done, place, way in entries[:WAYS]:
        result.setdefault(done, {})[place] = way
    return result


def bounds(weight):
    return {start: {end: cost_between(start, end, weight) for end in PLACES} for start in PLACES}
