"""Several accesses on one base by way of a data register, in code in words, within a block and over the blocks after it, also
around loops.

There an access on a data register is itself, where one on another register gets two masks. So the base of an access is put
in a data register that compilers leave alone, and later accesses on it, and on what it becomes by sums with numbers, are
on that register. Accesses on what is a sum with the stack pointer are on the stack pointer.

A base that leads to an object lies in the data region (`margins`), so that the data register is equal to it at the access
before which it's set, and the later accesses are at the same addresses as before."""
from typing import Optional

from suygapid.passes.control import blocks_of
from suygapid.passes.facts import DATA, bits
from suygapid.passes.known import KEPT_BY_CALLS
from suygapid.passes.operands import REGISTERS
from suygapid.passes.typed import HIGHEST, LOWEST, on_base, set_to, step_of


ROUNDS = 8  # how often the code is gone through, before nothing is taken to be held at the beginning of a loop


class Held:
    """What data registers hold: for each the registers that are it less a number."""

    def __init__(self, held=None):
        self.held = {"sp": {}, **{name: dict(others) for name, others in (held or {}).items()}}

    def find(self, base, offset):
        """The data register on which an access on a base may be, and its offset there, or None."""
        for name, others in self.held.items():
            if base in others and LOWEST <= offset - others[base] <= HIGHEST:
                return name, offset - others[base]
        return None

    def has(self, name, base):
        """Whether a data register is equal to a base."""
        return self.held.get(name, {}).get(base) == 0

    def set(self, name, base):
        self.held[name] = {base: 0}

    def take(self, op):
        """Changes what is held by an instruction of the program."""
        target = op.written
        if op.is_call:
            self.held = {"sp": {name: less for name, less in self.held["sp"].items() if name in KEPT_BY_CALLS}}
        elif target in DATA:
            step, others = step_of(op, target), self.held.get(target, {})
            self.held[target] = {} if step is None else {other: less + step for other, less in others.items()}
        elif target:
            self.take_sum(target, *sum_of(op))

    def take_sum(self, target, source, count):
        """The same where a register becomes the sum of another and a number, or of None."""
        for name, others in self.held.items():
            if source == name or source in others:
                others[target] = others.get(source, 0) - count
            elif target in others:
                del others[target]

    def __eq__(self, other):
        return self.items() == other.items()

    def is_like(self, other):
        """Whether all that is done by way of two is the same, also which of several data registers comes first."""
        return self.held == other.held and list(self.held) == list(other.held)

    def items(self):
        return {(name, *pair) for name, others in self.held.items() for pair in others.items()}

    def common(self, other):
        """What two have in common."""
        return Held({name: dict(others.items() & other.held.get(name, {}).items()) for name, others in self.held.items()})


def sum_of(op):
    """The register and the number of which an instruction is the sum, or None and 0."""
    if op.word == "mv":
        return op.operands[1], 0
    if op.word == "addi":
        return op.operands[1], int(op.operands[2])
    return (op.operands[2], 0) if op.word == "add" and op.operands[1] == "zero" else (None, 0)


EVERY = (1 << 32) - 1


def wanted_after(blocks, needs, kills, cut=frozenset()):
    """For each piece of the code the registers that are wanted after it: as bits, by what each piece needs and kills, over all
    ways from a block to another but those in `cut`."""
    ranges, own, kept = list(zip(blocks.starts, blocks.ends)), [], []
    for start, end in ranges:
        need, kill = 0, 0
        for number in range(end - 1, start - 1, -1):
            need = need & ~kills[number] | needs[number]
            kill |= kills[number]
        own.append(need)
        kept.append(EVERY & ~kill)
    found, waiting = list(own), list(range(len(own)))
    while waiting:
        block = waiting.pop()
        for other in blocks.before[block]:
            new = found[other] | found[block] & kept[other]
            if new != found[other] and (other, block) not in cut:
                found[other] = new
                waiting.append(other)
    after = []
    for block in range(len(ranges) - 1, -1, -1):
        out, (start, end) = 0, ranges[block]
        for other in blocks.following[block]:
            out |= 0 if (block, other) in cut else found[other]
        for number in range(end - 1, start - 1, -1):
            after.append(out)
            out = out & ~kills[number] | needs[number]
    return after[::-1]


BITS: dict[Optional[str], int] = {None: 0, **{name: 1 << number for name, number in REGISTERS.items()}}


def forgotten(piece):
    """The registers of which a piece makes something else than a sum with a number; all for a call."""
    if piece.is_call:
        return EVERY
    return piece.written_bits if piece.step is None else 0


class Sharer:
    """Puts bases in data registers that nothing else in the program needs."""

    def __init__(self, code, registers):
        self.code, self.registers = code, registers
        self.blocks = blocks_of(code)
        rank = {block: number for number, block in enumerate(self.blocks.order)}
        self.empty = {block for block in rank if block in self.blocks.entries or not rank.keys() >= set(self.blocks.before[block])}
        self.back = [(other, block) for block in rank if block not in self.empty
                     for other in self.blocks.before[block] if rank[other] >= rank[block]]
        into_empty = {(other, block) for block in self.empty for other in self.blocks.before[block]}
        self.later = wanted_after(self.blocks, [BITS[piece.masked_base] for piece in code], list(map(forgotten, code)), into_empty | set(self.back))
        self.live = self.read_later(bits(frozenset(registers)))
        self.most = {}  # for the first block of a loop, the most that may be taken to be held there
        self.done = {}  # by block, what was held before it the last time, its new code, and what was held after it

    def read_later(self, own):
        """For each piece those of some registers that are read after it: few parts of the code have any before this pass."""
        reads = [piece.read_bits & own for piece in self.code]
        return wanted_after(self.blocks, reads, [piece.written_bits for piece in self.code]) if any(reads) else reads

    def shared(self):
        """What is taken to be held at the first block of a loop has to be held where the loop leads back, too: as long as it
        isn't, less is taken, and nothing in the end."""
        for count in range(ROUNDS + 1):
            found, before, ends = self.passed()
            less = self.less(before, ends)
            if not less:
                break
            self.most.update(less if count < ROUNDS - 1 else {block: Held() for _, block in self.back})
        return [piece for block, (start, end) in enumerate(zip(self.blocks.starts, self.blocks.ends))
                for piece in found.get(block, self.code[start:end])]

    def less(self, before, ends):
        """By the first block of a loop what is held there where a loop leads back with less than that."""
        found = {}
        for other, block in self.back:
            held = found.get(block, before[block]).common(ends[other])
            if held != before[block]:
                found[block] = held
        return found

    def passed(self):
        """By block the new code, what is held before it, and what is held after it."""
        found, before, ends = {}, {}, {}
        for block in self.blocks.order:
            held = before[block] = self.held_before(block, ends)
            if block not in self.done or not held.is_like(self.done[block][0]):
                after = Held(held.held)
                self.done[block] = held, list(self.pass_block(block, after)), after
            _, found[block], ends[block] = self.done[block]
        return found, before, ends

    def held_before(self, block, ends):
        """What is held where a block begins, on each way there."""
        if block in self.empty:
            return Held()
        held, *others = [ends[other] for other in self.blocks.before[block] if other in ends]
        for other in [*others, *([self.most[block]] if block in self.most else [])]:
            held = held.common(other)
        return held

    def pass_block(self, block, held):
        for number, piece in enumerate(self.blocks.bodies[block], self.blocks.starts[block]):
            base, found = piece.masked_base, None
            if base:
                found = held.find(base, piece.offset)
                register = None if found else self.register_for(number, base, held)
                if register:
                    yield set_to(register, base)
                    held.set(register, base)
                    found = register, piece.offset
            elif piece.word == "mv" and held.has(*piece.operands):
                continue
            if piece.written:
                held.take(piece)
            yield on_base(piece, *found) if found else piece

    def register_for(self, number, base, held):
        """A data register for the base of an access, if the base is accessed later, too: one that holds nothing that is."""
        later = self.later[number]
        if base in self.code[number].writes or not later & BITS[base]:
            return None
        free = [name for name in self.registers if not self.is_live(number, name)]
        for name in free:
            if not any(later & BITS[other] for other in held.held.get(name, ())):
                return name
        return self.farthest(number, base, free, held)

    def farthest(self, number, base, free, held):
        """The register whose next access is the farthest in the block, if that is farther than the base's next one."""
        best = max(free, key=lambda name: self.next_access(number, held.held[name]), default=None)
        is_farther = best and self.next_access(number, held.held[best]) > self.next_access(number, {base})
        return best if is_farther else None

    def next_access(self, number, names):
        """The number of the next access on one of some bases in the block, or its end."""
        end = self.blocks.ends[self.blocks.block_of[number]]
        return next((at for at in range(number + 1, end) if self.code[at].masked_base in names), end)

    def is_live(self, number, name):
        """Whether a data register holds something before a piece that the code from there on reads."""
        piece = self.code[number]
        return bool((self.live[number] & ~piece.written_bits | piece.read_bits) & BITS[name])


def with_shared_masks(code, registers):
    return Sharer(code, registers).shared()
