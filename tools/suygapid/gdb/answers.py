"""The console's answers to a program's calls: it forgets the last ones where the program goes back and then another way."""
from __future__ import annotations

from sfi_run import Registers, Sandbox, World
from sfi_run.console import Console

A0 = 10  # the register


class Answers:
    """A console, and the calls that it answered: of each the gate's address, a0 and a1."""

    def __init__(self, image: bytes, given: bytes) -> None:
        self.image, self.given = image, given
        self.calls: list[tuple[int, int, int]] = []
        self.begin()

    def begin(self) -> None:
        """A new console answers the calls in a sandbox that does nothing else."""
        self.own = World(self.image)
        self.console = Console(self.own, self.given)
        box, x = self.own[0], self.own[0].registers.x
        for pc, a0, a1 in self.calls:
            box.registers = Registers(pc, (*x[:A0], a0, a1, *x[A0 + 2:]))
            self.console.turn(box, 1)

    def answer(self, world: World, box: Sandbox) -> bytes:
        """Answers the call at which the only sandbox of a world stands: what it puts."""
        registers, begun = box.registers, len(self.console.output[0])
        self.console.world = world
        self.console.turn(box, 1)
        self.calls.append((registers.pc, registers.x[A0], registers.x[A0 + 1]))
        return bytes(self.console.output[0][begun:])

    def forget(self, count: int) -> None:
        """Goes back to where so many calls were answered."""
        if count < len(self.calls):
            del self.calls[count:]
            self.begin()
