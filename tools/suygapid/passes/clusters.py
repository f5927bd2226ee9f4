"""Which accesses of a run on one base may be on `sp` in the second format, where `sp` is set to
that base before the first of them."""
from dataclasses import dataclass, field
from typing import NamedTuple

from suygapid.passes.instructions import Op, replace

POINT = 3  # the steps of `mv sp, a`
SPARED = 2  # the steps that an access on `sp` spares
LOWEST, HIGHEST = -2048, 2047
MOST_BEGINNINGS = 16  # of one base that are tried for an access


def touches_stack(op):
    return "sp" in op.reads | op.writes


def may_point(op):
    """Whether an instruction is an access that does the same on `sp`, where that holds its base:
    it has another base and a number as its offset, and neither stores the stack pointer nor loads
    it. An offset that stands for a name, by which the linker finds an object, is beyond all others."""
    if not op.is_access or "sp" in op.values | op.writes:
        return False
    offset, base = op.offset, op.base
    return base != "sp" and offset <= HIGHEST


def base_of(piece):
    """The base of an access that may be one on `sp`; None for all else."""
    return piece.base if not piece.is_mark and may_point(piece) else None


def step_of(op, base):
    """How far an instruction that writes a base moves it, or None where it makes another of it."""
    return int(op.operands[2]) if op.word == "addi" and op.operands[1] == base else None


@dataclass
class Cluster:
    """Accesses of a run, by their index, with their offsets from what `sp` is set to before the
    first of them."""
    base: str
    offsets: dict

    def gain(self):
        return SPARED * len(self.offsets) - POINT

    def first(self):
        return min(self.offsets)

    def last(self):
        return max(self.offsets)


class Beginning(NamedTuple):
    """An access that a cluster may begin with: its index, how far its base has moved there, and
    what a cluster from it would gain in all, less what its accesses spare that come later."""
    index: int  # type: ignore[assignment]
    moved: int
    gain: int


class Found(NamedTuple):
    """What is gained up to some instruction of a run, the first and the last index of the last
    cluster there, and what there was before it."""
    gain: int = 0
    first: int = 0
    last: int = 0
    before: object = None


@dataclass
class Chain:
    """The accesses on one base, and on what it becomes by the sums `addi a, a, N`: how many there
    are so far, how far the base has moved, and the accesses that a cluster may begin with. Each
    base that leads to an object lies in the data region (`margins`), so masking it at the first
    access in place of each changes nothing."""
    count: int = 0
    moved: int = 0
    beginnings: list = field(default_factory=list)

    def take(self, index, offset, best):
        """Takes one access more; what is gained by a cluster that ends with it, or what was
        before where none gains."""
        self.count += 1
        spared = SPARED * self.count
        self.beginnings = [other for other in self.beginnings
                           if LOWEST <= offset + self.moved - other.moved <= HIGHEST]
        found = max(self.beginnings, key=lambda other: other.gain, default=None)
        self.begin(Beginning(index, self.moved, best[index].gain - POINT - spared + SPARED))
        if found is None or found.gain + spared <= best[-1].gain:
            return best[-1]
        return Found(found.gain + spared, found.index, index, best[found.index])

    def begin(self, beginning):
        """Keeps a beginning. Of two whose bases are equal one does, since both reach as far."""
        for place, other in enumerate(self.beginnings):
            if other.moved == beginning.moved:
                if other.gain < beginning.gain:
                    self.beginnings[place] = beginning
                return
        self.beginnings.append(beginning)
        if len(self.beginnings) > MOST_BEGINNINGS:
            self.beginnings.remove(min(self.beginnings, key=lambda other: other.gain))


def best_clusters(ops):
    """The clusters of a run, no two of which overlap, that gain most together. Within one the
    stack pointer isn't used."""
    chains, best = {}, [Found()]  # by the base; by the number of instructions passed
    for index, op in enumerate(ops):
        best.append(best[-1])
        if touches_stack(op):
            chains = {}
        base = base_of(op)
        if base is not None:
            chain = chains.setdefault(base, Chain())
            best[-1] = chain.take(index, op.offset, best)
        for name in op.writes & chains.keys():
            step = step_of(op, name)
            if step is None:
                del chains[name]
            else:
                chains[name].moved += step
    return clusters_of(ops, best[-1])


def clusters_of(ops, found):
    clusters = []
    while found.before is not None:
        clusters.append(cluster_between(ops, found.first, found.last))
        found = found.before
    return clusters[::-1]


def cluster_between(ops, first, last):
    """The cluster of the accesses on the base of the first one, up to a last one."""
    base, moved, offsets = base_of(ops[first]), 0, {}
    for index in range(first, last + 1):
        if base_of(ops[index]) == base:
            offsets[index] = ops[index].offset + moved
        if base in ops[index].writes:
            moved += step_of(ops[index], base) or 0
    return Cluster(base, offsets)


def pointed(ops, clusters, begin=0):
    """The instructions of a run, for each in a list what it becomes. The first has the index
    `begin`."""
    starts = {cluster.first(): cluster.base for cluster in clusters}
    offsets = {index: offset for cluster in clusters for index, offset in cluster.offsets.items()}
    for index, op in enumerate(ops, begin):
        point = [Op("mv", ("sp", starts[index]), op.place)] if index in starts else []
        yield point + [on_stack_pointer(op, offsets[index]) if index in offsets else op]


def on_stack_pointer(op, offset):
    return replace(op, operands=(op.operands[0], f"{offset}(sp)"), pointed=True)
