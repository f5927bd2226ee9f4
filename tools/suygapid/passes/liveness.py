"""Which registers are still read after each piece of the code.

A call of a function of the same file needs what that reads. Any other takes its arguments as the
RISC-V calling convention has it: compilers give other conventions to functions alone whose every
call they see, and whose address nothing takes.
A call keeps all registers but `ra` alive: with -fipa-ra gcc has callers that still read the
registers that the called function happens not to write.

An address, a number or a sum in a register that nothing reads needs nothing itself."""
from functools import cached_property

from suygapid.passes.facts import EVERYTHING, bits

ALL = bits(EVERYTHING)


class Liveness:
    """The registers that may be read: before each piece, and after it, as bits."""

    def __init__(self, blocks):
        """It goes through the code by its blocks."""
        self.blocks = blocks
        self.ends_elsewhere = set(blocks.elsewhere)
        self.at_starts = [0] * len(blocks.bodies)
        self.spread()

    def called(self, piece):
        """The block of the program that a piece calls, or None."""
        return self.blocks.at.get(piece.operands[-1]) if piece.is_call else None

    def spread(self):
        """Goes back from each block to those before it, in rounds from the last block to the first, until nothing more is
        found."""
        callers, is_waiting, is_done = self.callers(), [True] * len(self.blocks.bodies), False
        while not is_done:
            is_done = True
            for block in range(len(is_waiting) - 1, -1, -1):
                if is_waiting[block]:
                    is_waiting[block], alive = False, self.alive_at_start(block)
                    if alive != self.at_starts[block]:
                        self.at_starts[block] = alive
                        for other in (*self.blocks.before[block], *callers.get(block, ())):
                            is_waiting[other] = True
                            is_done &= other < block

    def callers(self):
        """By a block that is called, the blocks that call it."""
        found = {}
        for block, body in enumerate(self.blocks.bodies):
            for piece in body:
                if piece.is_call and (target := self.called(piece)) is not None:
                    found.setdefault(target, []).append(block)
        return found

    def alive_at_start(self, block):
        """What is alive before a block, as far as it is found what is after it."""
        alive = self.alive_after(block)
        for piece in reversed(self.blocks.bodies[block]):
            if piece.has_effect or alive & piece.written_bits:
                alive = self.alive_before_call(piece, alive) if piece.is_call else alive & ~piece.written_bits | piece.needs
        return alive

    def alive_after(self, block):
        if block in self.ends_elsewhere:
            there = self.blocks.bodies[block][-1].there
            alive = ALL if there is None else there
        else:
            alive = 0
        for other in self.blocks.following[block]:
            alive |= self.at_starts[other]
        return alive

    def alive_before_call(self, piece, alive):
        """What is alive before a call, by what is after it."""
        kills, target = piece.written_bits, self.called(piece)
        there = piece.there if target is None else self.at_starts[target]
        return alive & ~kills | (piece.needs if there is None else there & ~kills)

    @cached_property
    def after(self):
        found = []
        for block in range(len(self.blocks.bodies) - 1, -1, -1):
            alive = self.alive_after(block)
            for piece in reversed(self.blocks.bodies[block]):
                found.append(alive)
                if piece.has_effect or alive & piece.written_bits:
                    alive = self.alive_before_call(piece, alive) if piece.is_call else alive & ~piece.written_bits | piece.needs
        return found[::-1]

    @cached_property
    def before(self):
        found = [0, *self.after]
        for start, alive in zip(self.blocks.starts, self.at_starts):
            found[start] = alive
        return found[:-1]


def liveness_of(blocks):
    """The liveness of some code, by its blocks."""
    if blocks.liveness is None:
        blocks.liveness = Liveness(blocks)
    return blocks.liveness


def without_unread(blocks):
    """The code without the addresses, numbers and sums that nothing reads: the same list where all is read."""
    found = [piece for piece, after in zip(blocks.code, liveness_of(blocks).after) if piece.has_effect or after & piece.written_bits]
    return found if len(found) < len(blocks.code) else blocks.code
