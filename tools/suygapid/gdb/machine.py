"""A program's sandbox as a debugger has it: memory, registers, and runs that end where there is something to tell.

Registers may be written where a bundle or word begins alone, and gdb calls a function wherever the program stands: it
writes some registers, runs, and puts them back. So what is written waits until the program goes on. Where its pc is then
another, a second sandbox goes on from there, with a copy of the data; when the registers of the first are back, so is the
first, with the data that the second left."""
from dataclasses import dataclass
from typing import Optional

from sfi_run import Cause, Exited, Registers, Trapped, World
from suygapid.elf.image import code_of, format_of, image
from suygapid.gdb.answers import Answers
from suygapid.gdb.history import History, Interrupted
from suygapid.gdb.stepping import Until

PC, RA, SP = 32, 1, 2  # places in a list of registers, which has x0 to x31 and then pc
OF_WORDS = (3, 4, 29, 30, 31)
SCRATCH = {"1": (31,), "2": (31,), "words": OF_WORDS, "single": OF_WORDS}  # what a format's masks use, and no function gets
INTERRUPT, ILLEGAL, TRAP, SEGMENT = 2, 4, 5, 11  # numbers of signals
SIGNALS = {Cause.FETCH: SEGMENT, Cause.ILLEGAL: ILLEGAL, Cause.BREAK: TRAP, Cause.LOAD: SEGMENT, Cause.STORE: SEGMENT}


@dataclass(frozen=True)
class Stop:
    """The program has stopped, by a signal; where a watched object has changed, with its address; and back at its beginning."""
    signal: int = TRAP
    watched: Optional[int] = None
    is_beginning: bool = False


@dataclass(frozen=True)
class End:
    """The program has ended: with a number, or by a signal."""
    number: int
    is_signal: bool = False


@dataclass
class Level:
    """A sandbox in which the program runs, and of one that runs a function that gdb calls, the address to which gdb has it
    return, which is none of the code, and its stack pointer then."""
    history: History
    back: Optional[int] = None
    stack: int = 0

    @property
    def values(self):
        now = self.history.box.registers
        return [*now.x, now.pc]


class Machine:
    """The program, with the places where it is to stop. `say` gets what it puts, and `is_interrupted` tells whether a run is
    to end."""

    def __init__(self, elf, given):
        self.image, self.given = image([elf]), given
        self.scratch, self.start = SCRATCH[format_of(elf)], elf.symbol("__sfi_code")
        self.code = code_of(elf)
        self.breaks, self.watches = set(), set()
        self.say, self.is_interrupted = print, lambda: False
        self.restart()

    def restart(self):
        """Begins the program anew."""
        self.answers = Answers(self.image, self.given)
        self.levels, self.written = [Level(self.begun(World(self.image)))], None

    def begun(self, world):
        return History(world, self.answers, lambda text: self.say(text))

    @property
    def history(self):
        return self.levels[-1].history

    @property
    def box(self):
        return self.history.box

    # Memory and registers.

    def read(self, at, size):
        """The bytes from an address on, as far as there are some; OutsideData where there is none."""
        if 0 <= at - self.start < len(self.code):
            return self.code[at - self.start:at - self.start + size]
        data = self.box.data
        return self.box.read(at, max(1, min(size, data.base + data.size - at)))

    def write(self, at, content):
        self.history.write(at, content)

    @property
    def registers(self):
        return self.written or self.levels[-1].values

    @registers.setter
    def registers(self, values):
        self.written = [0, *values[1:]]

    def take_written(self):
        """Has the registers that were written take effect, or raises NotEntered."""
        values = self.written
        if values is None or values == self.levels[-1].values:
            pass
        elif below := next((level for level in self.levels[-2::-1] if values == level.values), None):
            self.leave_data(below.history)
            del self.levels[self.levels.index(below) + 1:]
        elif values[PC] == self.box.pc:
            self.history.set_registers(Registers(values[PC], tuple(values[:PC])))
        else:
            self.levels.append(self.fresh(values))
        self.written = None

    def fresh(self, values):
        """A sandbox that goes on with these registers."""
        self.history.forget_future()
        world, (base, content), back = World(self.image), self.data(), None
        x, begun = values[:PC], world[0].registers.x
        for number in self.scratch:
            x[number] = begun[number]
        if not 0 <= x[RA] - self.start < len(self.code):
            back, x[RA] = x[RA], self.start  # where an ebreak stands
        world[0].write(base, content)
        world[0].registers = Registers(values[PC], tuple(x))
        return Level(self.begun(world), back, x[SP])

    def data(self):
        """Where the data begin, and what they are."""
        region = self.box.data
        return region.base, self.box.read(region.base, region.size)

    def leave_data(self, history):
        """Hands the data to the sandbox that goes on, if they are others than it has."""
        base, content = self.data()
        if history.box.read(base, len(content)) != content:
            history.write(base, content)

    # Runs.

    def step(self):
        """One instruction, or one call of a gate with its reply: why the program has stopped then."""
        self.take_written()
        event = self.box.event
        return self.ended(event) or self.told(self.history.forward(steps=1)) or self.returned() or Stop()

    def go(self, within=None):
        """Runs to a stop: at a breakpoint, after a change of what is watched, at a trap, at the end, by an interrupt, or
        outside some range of addresses."""
        self.take_written()
        until = Until(self.stops(), sorted(self.watches), within)
        found = self.ended(self.box.event)
        while not found:
            if self.is_interrupted():
                return Stop(INTERRUPT)
            before = self.watched()
            event = self.history.forward(until)
            found = self.told(event) or self.changed(before) or self.arrived(until)
        return found

    def stops(self):
        landing = {self.start} if self.levels[-1].back is not None else set()
        return sorted(self.breaks | landing)

    def step_back(self):
        """Goes back by one step, if there is one."""
        self.take_written()
        if self.history.is_first():
            return Stop(is_beginning=True)
        after = self.watched()
        self.history.go_to(self.history.time - 1)
        return self.changed(after) or Stop()

    def go_back(self):
        """Goes back to the last stop, before what changed something that is watched, or to the beginning."""
        self.take_written()
        try:
            found = self.history.back(Until(sorted(self.breaks), sorted(self.watches)), self.is_interrupted)
        except Interrupted:
            return Stop(INTERRUPT)
        return Stop(watched=found.changed) if found else Stop(is_beginning=True)

    def ended(self, event):
        """The end of a program that is to go on after it has stopped for good."""
        found = self.told(event)
        return End(found.signal, True) if isinstance(found, Stop) else found

    @staticmethod
    def told(event):
        if isinstance(event, Trapped):
            return Stop(SIGNALS[event.cause])
        return End(event.number) if isinstance(event, Exited) else None

    def watched(self):
        return {place: self.read(*place) for place in self.watches}

    def changed(self, before):
        at = next((place[0] for place in before if self.read(*place) != before[place]), None)
        return None if at is None else Stop(watched=at)

    def arrived(self, until):
        pc, within = self.box.pc, until.within
        if pc in until.stops:
            return self.returned() or (Stop() if pc in self.breaks else None)
        return Stop() if within and not within[0] <= pc < within[1] else None

    def returned(self):
        """The stop where a function that gdb calls has returned: gdb sees the address that it gave."""
        level = self.levels[-1]
        values = level.values
        if level.back is None or (values[PC], values[SP]) != (self.start, level.stack):
            return None
        self.written = [*values[:PC], level.back]
        return Stop()
