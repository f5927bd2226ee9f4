"""Runs of a sandbox that can be gone back.

A run is the same each time it is made, but for what its host does between two steps: it replies to a call, writes data, or sets
registers. So that is noted, with the number of steps before it, which is the time. To go back, a checkpoint is taken up again,
and the sandbox runs from there up to the time that is wanted, while what is noted is done again. Where the host does something
else in the past, what came after it is forgotten."""
from __future__ import annotations

from collections.abc import Callable, Iterator
from dataclasses import dataclass, field
from itertools import zip_longest
from typing import NamedTuple, Optional

from sfi_run import Call, Event, Exited, NotEntered, Ready, Registers, Trapped, World
from suygapid.gdb.answers import Answers
from suygapid.gdb.stepping import Until
from suygapid.services import GATES

ANYWHERE = Until()
MOST = 1 << 32  # more steps than one turn makes
BETWEEN = 1000000  # steps from one checkpoint to the next, at first
CHECKPOINTS = 64  # the most of them: of more each second one goes, and new ones are twice as far apart
PIECE = 1 << 16  # bytes of data that a checkpoint shares with an earlier one where they are the same
ZEROS = bytes(PIECE)
CLOSE = 1000  # steps before a time that is gone back to, where a checkpoint is for the next steps back


class Done(NamedTuple):
    """What the host did at a time. A reply to a call is a step, too; anything else takes no time."""
    time: int
    writes: tuple[tuple[int, bytes], ...] = ()
    registers: Optional[Registers] = None
    reply: Optional[tuple[int, int]] = None
    answered: int = 0  # how many calls the console has answered then


@dataclass(frozen=True)
class Checkpoint:
    """A sandbox at a time, after so many things were done."""
    time: int
    place: int
    registers: Registers
    pieces: tuple[bytes, ...] = field(repr=False)  # of the data; those that are as in an earlier one are the same object

    @property
    def data(self) -> bytes:
        return b"".join(self.pieces)


@dataclass(frozen=True)
class Moment:
    """A time at which a run that goes back stops, and the address of what the next step changes."""
    time: int
    changed: Optional[int] = None


class Interrupted(Exception):
    """Somebody else has ended a search in the past."""


class History:
    """The only sandbox of a world, and how it came to stand as it does. `say` gets what it puts."""

    def __init__(self, world: World, answers: Answers, say: Callable[[bytes], object]) -> None:
        self.world, self.box, self.answers, self.say = world, world[0], answers, say
        self.begun, self.between = -self.box.steps, BETWEEN
        self.done: list[Done] = []
        self.place = 0  # how many of these are done
        self.near: Optional[Checkpoint] = None
        self.checkpoints: list[Checkpoint] = []
        self.checkpoints = [self.checkpoint()]

    @property
    def time(self) -> int:
        """How many steps led here."""
        return self.begun + self.box.steps

    def is_first(self) -> bool:
        return self.time == self.checkpoints[0].time

    def is_past(self) -> bool:
        """Whether the host did something after this."""
        return self.place < len(self.done)

    # What the host does.

    def write(self, at: int, content: bytes) -> None:
        self.box.write(at, content)
        self.note(Done(self.time, writes=((at, content),)))

    def set_registers(self, registers: Registers) -> None:
        self.box.registers = registers
        self.note(Done(self.time, registers=registers))

    def note(self, done: Done) -> None:
        self.forget_future()
        self.done.append(done._replace(answered=len(self.answers.calls)))
        self.place += 1

    def forget_future(self) -> None:
        """Forgets what came after this, before the sandbox goes another way."""
        if self.is_past():
            self.answers.forget(self.done[self.place - 1].answered if self.place else 0)
            del self.done[self.place:]
        self.checkpoints = [point for point in self.checkpoints if self.is_before(point)]
        self.near = self.near if self.near and self.is_before(self.near) else None

    def is_before(self, point: Checkpoint) -> bool:
        return point.time <= self.time and point.place <= self.place

    def answer(self, call: Call) -> None:
        """Has the console reply to the call at which the sandbox stands."""
        time = self.time
        put = self.answers.answer(self.world, self.box)
        if put:
            self.say(put)
        if not isinstance(self.box.event, Exited):
            x = self.box.registers.x
            self.note(Done(time, self.got(call, x[10]), reply=(x[10], x[11])))

    def got(self, call: Call, count: int) -> tuple[tuple[int, bytes], ...]:
        """What a reply wrote: get alone does, and then a0 is the number of bytes."""
        wrote = call.service == GATES["get"] and 0 < count <= call.a1
        return ((call.a0, self.box.read(call.a0, count)),) if wrote else ()

    # Forward.

    def forward(self, until: Until = ANYWHERE, steps: int = MOST) -> Event:
        """Goes on by at most so many steps, and up to a call or past the reply to one: how the sandbox stands then."""
        event = self.box.event
        if self.is_past() and self.done[self.place].time == self.time:
            self.do_again()
        elif isinstance(event, Call):
            self.answer(event)
        else:
            left = self.done[self.place].time - self.time if self.is_past() else steps
            until.run(self.box, min(steps, left))
            self.keep()
        self.settle()
        return self.box.event

    def do_again(self) -> None:
        done = self.done[self.place]
        for write in done.writes:
            self.box.write(*write)
        if done.registers:
            self.box.registers = done.registers
        if done.reply:
            self.box.reply(*done.reply)
        self.place += 1

    def settle(self) -> None:
        """Does again what takes no time."""
        while self.is_past() and self.done[self.place].time == self.time and not self.done[self.place].reply:
            self.do_again()

    def advance(self, time: int) -> None:
        """Goes on up to a time that there was."""
        event = self.box.event
        while self.time < time and not isinstance(event, (Exited, Trapped)):
            event = self.forward(ANYWHERE, time - self.time)

    # Checkpoints.

    def pieces(self) -> Iterator[tuple[int, bytes]]:
        """The data, each piece with its address."""
        data = self.box.data
        for at in range(data.base, data.base + data.size, PIECE):
            yield at, self.box.read(at, min(PIECE, data.base + data.size - at))

    def checkpoint(self) -> Checkpoint:
        before = self.checkpoints[-1].pieces if self.checkpoints else ()
        pieces = ((now, (then, ZEROS)) for (_, now), then in zip_longest(self.pieces(), before))
        return Checkpoint(self.time, self.place, self.box.registers,
                          tuple(next((it for it in known if it == now), now) for now, known in pieces))

    def can_be_taken_up(self) -> bool:
        """Whether the sandbox stands where its registers can be set, which is not so in the midst of a mask."""
        if not isinstance(self.box.event, (Ready, Call)):
            return False
        try:
            self.box.registers = self.box.registers
        except NotEntered:
            return False
        return True

    def points(self) -> list[Checkpoint]:
        """All checkpoints, by their time."""
        return sorted([*self.checkpoints, *([self.near] if self.near else [])], key=lambda point: (point.time, point.place))

    def last_point(self, time: int) -> Checkpoint:
        return [point for point in self.points() if point.time <= time][-1]

    def keep(self) -> None:
        """Takes a checkpoint where the last one is far off."""
        if self.time - self.last_point(self.time).time < self.between or not self.can_be_taken_up():
            return
        self.checkpoints = sorted([*self.checkpoints, self.checkpoint()], key=lambda point: point.time)
        if len(self.checkpoints) > CHECKPOINTS:
            self.checkpoints, self.between = self.checkpoints[::2], 2 * self.between

    # Back.

    def take_up(self, point: Checkpoint) -> None:
        for (at, now), then in zip(list(self.pieces()), point.pieces):
            if now != then:
                self.box.write(at, then)
        self.box.registers = point.registers
        self.begun, self.place = point.time - self.box.steps, point.place
        self.settle()

    def go_to(self, time: int) -> None:
        """Goes to a time that there was."""
        point = self.last_point(time)
        self.take_up(point)
        if time - point.time > 2 * CLOSE:
            self.advance(time - CLOSE)
            self.come_near(time)
        self.advance(time)

    def come_near(self, time: int) -> None:
        """Takes the checkpoint for the next steps back, at the first place for one before a time."""
        while self.time < time and not self.can_be_taken_up():
            self.advance(self.time + 1)
        if self.time < time:
            self.near = self.checkpoint()

    def back(self, until: Until, is_interrupted: Callable[[], bool]) -> Optional[Moment]:
        """Goes back to the last moment before this where the run would stop; to the first time of all if there is none, and
        answers None then. Raises Interrupted, and is where it was."""
        now = limit = self.time
        try:
            for point in [point for point in self.points()[::-1] if point.time < now and (until.stops or until.places)]:
                found = self.last_moment(point, limit, until, is_interrupted)
                if found:
                    self.go_to(found.time)
                    return found
                limit = point.time
        except Interrupted:
            self.go_to(now)
            raise
        self.go_to(self.checkpoints[0].time)
        return None

    def last_moment(self, point: Checkpoint, limit: int, until: Until, is_interrupted: Callable[[], bool]) -> Optional[Moment]:
        """The last one from a checkpoint up to a time."""
        self.take_up(point)
        found = Moment(self.time) if self.box.pc in until.stops else None
        while self.time < limit:
            before = self.read(until)
            self.forward(until, limit - self.time)
            changed = next((place[0] for place, old, new in zip(until.places, before, self.read(until)) if old != new), None)
            if changed is not None:
                found = Moment(self.time - 1, changed)
            if self.box.pc in until.stops and self.time < limit:
                found = Moment(self.time)
            if is_interrupted():
                raise Interrupted
        return found

    def read(self, until: Until) -> list[bytes]:
        return [self.box.read(*place) for place in until.places]
