"""Several accesses on one base by way of `sp`, in the second format.

There an access on `sp` is one instruction, where one on another register is three. So `mv sp, a`,
which is three, pays where two accesses on a follow it. Meanwhile the stack pointer is kept in a
register. This is done

- in a loop that has neither a call nor an access to its frame: `sp` is kept before it and put back
  after it,
- in a run of instructions, if enough of them gain by it.

The rules hold whatever `sp` points to, since the checker wants a masked pair after each write of
it. That the program does the same rests on three facts. Between keeping and putting back nothing
reads `sp` as the stack pointer: no call, no return, no access to the frame stands there, and a
sandbox has no signals. The register that keeps it isn't read after that before it's written
again. And no caller counts on it: it is one that the function, wherever it's entered, writes by
itself."""
from collections import Counter
from dataclasses import dataclass
from operator import and_, or_

from suygapid.passes.clusters import POINT, SPARED, base_of, best_clusters, on_stack_pointer, pointed, touches_stack
from suygapid.passes.control import LOOP, Blocks, labels_of, spread
from suygapid.passes.dependences import runs
from suygapid.passes.facts import EVERYTHING, bits
from suygapid.passes.instructions import Op, replace
from suygapid.passes.liveness import Liveness
from suygapid.passes.operands import REGISTERS
from suygapid.passes.program import Mark

KEEPERS = "t0 t1 t2 t3 t4 t5 a0 a1 a2 a3 a4 a5 a6 a7 ra s0 s1 s2 s3 s4 s5 s6 s7".split()
KEEP_AND_PUT_BACK = 4


class Keepers:
    """Finds registers that may keep the stack pointer."""

    def __init__(self, code, blocks):
        self.code = code
        self.liveness = Liveness(blocks)
        self.blocks = blocks
        self.touched = [piece.read_bits | piece.written_bits for piece in code]
        self.owned = self.owned_by_blocks()

    def owned_by_blocks(self):
        """For each block, as bits, the registers that the program writes from each entry that
        leads to the block. gcc's -fipa-ra lets a caller count on each other one."""
        written = [0] * len(self.blocks.starts)
        for block, piece in zip(self.blocks.block_of, self.code):
            written[block] |= piece.written_bits
        ahead = spread(written, self.blocks.before, or_)
        owned = [bits(EVERYTHING) for _ in written]
        for entry in self.blocks.entries:
            owned[entry] = ahead[entry]
        return spread(owned, self.blocks.following, and_)

    def free(self, first, last):
        """A register that nothing needs from one piece to another, or None."""
        used = self.liveness.before[first]
        for number in range(first, last + 1):
            used |= self.liveness.after[number] | self.touched[number]
        usable = self.owned[self.blocks.block_of[first]] & ~used
        return next((name for name in KEEPERS if usable >> REGISTERS[name] & 1), None)


def keep(keeper):
    return Op("mv", (keeper, "sp"), None)


def put_back(keeper):
    return Op("mv", ("sp", keeper), None)


def leaves_stack_alone(piece):
    """Whether a loop with this piece can have another `sp`."""
    if piece.is_mark or piece.is_branch or piece.is_jump:
        return True
    return piece.goes_on and not piece.is_call and piece.word != "fence" and not touches_stack(piece)


@dataclass
class Loop:
    """A loop that has another `sp`: its pieces, what keeps the stack pointer, the label before
    it, and the base that `sp` is set to there, if it's set once."""
    first: int
    last: int
    keeper: str
    start: str
    body: list
    base: str


class Loops:
    """Points in the innermost loops."""

    def __init__(self, code, names):
        self.code, self.names = code, names
        self.blocks = Blocks(code)
        self.loops = self.blocks.loops()
        self.keepers = Keepers(code, self.blocks)
        chosen = [self.chosen(head, inside) for head, inside in sorted(self.loops.items())]
        self.by_first = {loop.first: loop for loop in chosen if loop}
        self.starts = {code[loop.first].name: loop.start for loop in chosen if loop}
        self.exits = []  # where jumps out of loops put the stack pointer back

    def pieces(self):
        out, number = [], 0
        while number < len(self.code):
            if getattr(self.code[number], "begins_section", False):
                out += self.taken_exits()
            loop = self.by_first.get(number)
            out += self.written(loop) if loop else [self.entering(self.code[number])]
            number = loop.last + 1 if loop else number + 1
        return out + self.taken_exits()

    def taken_exits(self):
        """The places that jumps out of loops go by, at a section's end."""
        found, self.exits = self.exits, []
        return found

    def chosen(self, head, inside):
        """The loop with its pointed body, or None where it can't have one or doesn't gain."""
        first, last = self.blocks.starts[head], self.blocks.ends[max(inside)] - 1
        keeper = self.keepers.free(first, last)
        if keeper is None or not self.is_fit(head, inside, first, last):
            return None
        body, gain, base = pointed_body(self.code[first:last + 1])
        if gain * LOOP <= KEEP_AND_PUT_BACK + POINT:
            return None
        return Loop(first, last, keeper, self.names.fresh("point..1"), body, base)

    def is_fit(self, head, inside, first, last):
        """Whether it is one stretch of code, from its head's label on, without an inner loop, a
        call or a use of the stack pointer."""
        if inside & self.blocks.entries or (inside - {head}) & self.loops.keys() or not self.code[first].is_mark:
            return False
        return sorted(inside) == list(range(head, max(inside) + 1)) and all(
            leaves_stack_alone(piece) for piece in self.code[first:last + 1])

    def entering(self, piece):
        """A piece outside of the loops, which enters a loop by the label before it."""
        if not piece.is_goto or piece.operands[-1] not in self.starts:
            return piece
        return replace(piece, operands=(*piece.operands[:-1], self.starts[piece.operands[-1]]))

    def written(self, loop):
        point = [Op("mv", ("sp", loop.base), None)] if loop.base else []
        before = [Mark(loop.start, True), keep(loop.keeper), *point]
        inside = labels_of(loop.body)
        body = [self.leaving(piece, loop, inside) for piece in loop.body]
        return before + body + ([put_back(loop.keeper)] if loop.body[-1].goes_on else [])

    def leaving(self, piece, loop, inside):
        """A piece of a loop. Where it jumps out of the loop, it goes by a place that puts the
        stack pointer back."""
        if not piece.is_goto or piece.operands[-1] in inside:
            return piece
        name = self.names.fresh("leave..1")
        jump = self.entering(Op("j", piece.operands[-1:], piece.place))
        self.exits += [Mark(name, True), put_back(loop.keeper), jump]
        return replace(piece, operands=(*piece.operands[:-1], name))


def pointed_body(body):
    """What a loop becomes, what a turn of it gains, and the base that `sp` is set to before it,
    if to one alone."""
    changed = set().union(*(piece.writes for piece in body if not piece.is_mark))
    counts = Counter(base for base in map(base_of, body) if base not in (None, *changed))
    out, gain = [], 0
    for run in runs(body):
        ops = [body[number] for number in run]
        clusters = [] if ops[0].is_mark else best_clusters(ops)
        gain += sum(cluster.gain() for cluster in clusters)
        out += [op for pieces in pointed(ops, clusters) for op in pieces]
    base, count = max(counts.items(), key=lambda item: item[1], default=(None, 0))
    if SPARED * count < gain or not count:
        return out, gain, None
    out = [on_stack_pointer(piece, piece.offset) if base_of(piece) == base else piece
           for piece in body]
    return out, SPARED * count, base


def with_pointed_runs(code):
    """The code whose runs keep the stack pointer and put it back themselves, where that gains."""
    keepers, out = Keepers(code, Blocks(code)), []
    for run in runs(code):
        ops = [code[number] for number in run]
        clusters = [] if ops[0].is_mark else best_clusters(ops)
        pieces = [[op] for op in ops]
        for part in parts(ops, clusters):
            first, last = part[0].first(), part[-1].last()
            keeper = keepers.free(run[first], run[last])
            if keeper is None or sum(cluster.gain() for cluster in part) <= KEEP_AND_PUT_BACK:
                continue
            pieces[first:last + 1] = pointed(ops[first:last + 1], part, first)
            pieces[first].insert(0, keep(keeper))
            pieces[last].append(put_back(keeper))
        out += [op for some in pieces for op in some]
    return out


def parts(ops, clusters):
    """The clusters of a run, together where between them nothing uses the stack pointer."""
    found = []
    for cluster in clusters:
        if not found or any(touches_stack(op) for op in ops[found[-1][-1].last():cluster.first()]):
            found.append([])
        found[-1].append(cluster)
    return found


def with_pointing(code, names):
    return with_pointed_runs(Loops(code, names).pieces())
