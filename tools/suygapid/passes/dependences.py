"""Which instructions of a run may change places: what they read and write, in registers and in
memory."""
from collections import deque

from suygapid.passes.facts import STORES

WIDTHS = {"b": 1, "h": 2, "w": 4}  # by the letter after the first of a load's or store's name
WINDOW = 32  # only instructions that are less far apart change places


def runs(code):
    """The numbers of the pieces, in runs: a barrier alone, or what stands between two."""
    run = []
    for number, piece in enumerate(code):
        if not piece.is_barrier:
            run.append(number)
            continue
        if run:
            yield run
        yield [number]
        run = []
    if run:
        yield run


class Access:
    """A load or store of a run. `version` counts the writes of its base before it, so that two
    accesses on one base and version are on one address. A load of the stack pointer itself is from
    where its program kept it, and so may be on an object."""

    def __init__(self, index, op, version):
        self.index = index
        self.offset, self.base = op.offset, op.base
        self.end = self.offset + WIDTHS[op.word[1]]
        self.version = version
        self.stores = op.word in STORES
        in_frame = not op.pointed and op.written != "sp"
        self.region = {"sp": "frame" if in_frame else "another", "zero": "data"}.get(self.base)

    def may_meet(self, other):
        """Whether two accesses, of which one stores, may have a byte in common. A frame's slots
        and the objects at the region's beginning have none: the stack lies after all objects."""
        if not (self.stores or other.stores) or {self.region, other.region} == {"frame", "data"}:
            return False
        if (self.base, self.version) != (other.base, other.version):
            return True
        return self.offset < other.end and other.offset < self.end


def needed_before(ops):
    """For each instruction of a run the earlier ones that have to stay before it, of those less
    than WINDOW before it."""
    needed, writers, readers, versions = [], {}, {}, {}
    accesses = deque()
    for index, op in enumerate(ops):
        read, written_now = op.reads, op.writes
        earlier = {writers[name] for name in read | written_now if name in writers}
        earlier.update(reader for name in written_now for reader in readers.get(name, ()))
        if op.is_access:
            while accesses and index - accesses[0].index >= WINDOW:
                accesses.popleft()
            access = Access(index, op, versions.get(op.base, 0))
            earlier.update(other.index for other in accesses if access.may_meet(other))
            accesses.append(access)
        for name in read:
            readers.setdefault(name, []).append(index)
        for name in written_now:
            writers[name], readers[name] = index, []
            versions[name] = versions.get(name, 0) + 1
        needed.append({other for other in earlier if index - other < WINDOW})
    return needed
