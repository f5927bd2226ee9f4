"""Runs the sandboxes of a program by turns with the console's services, and tells what it is asked to watch."""
import re
from collections import Counter

from sfi_run import Call, Exited, Ready, Trapped
from sfi_run.console import Console
from suygapid.services import SERVICES

WRITTEN = re.compile(r"^[a-z.]+ x(\d+), ")
NO_RESULT = ("sb", "sh", "sw", "beq", "bne", "blt", "bge", "bltu", "bgeu", "fence", "ecall", "ebreak")


class Watch:
    """Sees each instruction before it is done and after it, and each call that is replied to. It watches nothing."""
    every = 1  # steps from one look to the next

    def before(self, sandbox, pc):
        """An instruction will be done."""

    def after(self, sandbox, pc, event):
        """An instruction was done, or has trapped."""

    def call(self, sandbox, call):
        """A call was replied to."""

    def end(self):
        """All have stopped, or their steps are used."""


class Calls(Watch):
    """Prints each call with its reply."""
    every = 1 << 32

    def __init__(self, say, several):
        self.say, self.several = say, several

    def head(self, sandbox):
        return f"{sandbox.number}: " if self.several else ""

    def call(self, sandbox, call):
        replied, event = sandbox.registers.x, sandbox.event
        told = f"{SERVICES[call.service]}({call.a0:#x}, {call.a1:#x})"
        result = f"exits with {event.number}" if isinstance(event, Exited) else f"= {replied[10]:#x}, {replied[11]:#x}"
        self.say(f"{self.head(sandbox)}{told} {result}")


class Instructions(Calls):
    """Prints each instruction as `sfi dis` does, with the register that it wrote, and each call."""
    every = 1

    def __init__(self, say, several, program):
        super().__init__(say, several)
        self.program, self.line = program, ""

    def named(self, sandbox, pc):
        """The label at an address, and the line where that is another than before."""
        label, line = self.program.label(pc), self.program.place(pc).line
        if label:
            self.say(f"{self.head(sandbox)}{label}:")
        if line and line != self.line:
            self.say(f"{self.head(sandbox)}# {line}")
        self.line = line or self.line

    def after(self, sandbox, pc, event):
        self.named(sandbox, pc)
        word, said = self.program.listing.get(pc, ("", "?"))
        written = WRITTEN.match(said)
        told = f"{self.head(sandbox)}{pc:08x} {word} {said}"
        if isinstance(event, Trapped):
            told += f"  trap={event.cause.name.capitalize()} at={event.address:08x}"
        elif written and written[1] != "0" and said.split()[0] not in NO_RESULT:
            told = f"{told:<48} x{written[1]}={sandbox.registers.x[int(written[1])]:08x}"
        self.say(told)


class Breaks(Calls):
    """Prints the instruction and the registers at each arrival at a breakpoint, as `sfi run --report` does."""
    every = 1

    def __init__(self, say, several, program, addresses):
        super().__init__(say, several)
        self.program, self.addresses = program, addresses

    def call(self, sandbox, call):
        pass

    def before(self, sandbox, pc):
        if pc not in self.addresses:
            return
        place, registers = self.program.place(pc), sandbox.registers
        word, said = self.program.listing[pc]
        where = place.function + (f", {place.line}" if place.line else "")
        self.say(f"sandbox={sandbox.number} step={sandbox.steps} pc={pc:08x} {word} {said}  # {where}")
        for first in range(0, 32, 8):
            self.say(" ".join(f"x{k}={registers.x[k]:08x}" for k in range(first, first + 8) if k))


class Profile(Watch):
    """Counts the steps of each instruction, or of one step in `every`, and prints a table of them."""

    def __init__(self, say, several, program, by, every):
        self.say, self.several, self.program, self.by, self.every = say, several, program, by, every
        self.counts = Counter()

    def before(self, sandbox, pc):
        self.counts[pc] += 1

    def after(self, sandbox, pc, event):
        if isinstance(event, Trapped) and self.every == 1:
            self.counts[pc] -= 1  # a trap is no step

    def row(self, pc):
        """What a step counts to: the words of its row."""
        place = self.program.place(pc)
        number = next((f"{it}: " for base, size, it in self.program.regions if base <= pc < base + size), "") if self.several else ""
        if self.by == "function":
            return (number + place.function,)
        if self.by == "line":
            return (number + (place.line or "-"), place.function)
        word, said = self.program.listing.get(pc, ("", "?"))
        return (f"{pc:08x} {word} {said}", place.line or place.function)

    def end(self):
        rows, lines = Counter(), {}
        for pc, count in self.counts.items():
            rows[self.row(pc)] += count
            line = self.program.place(pc).line
            if line:
                lines.setdefault(self.row(pc), set()).add(line)
        total = sum(rows.values()) or 1
        self.say(f"{'steps' if self.every == 1 else 'looks':>10}  share  {self.by}")
        for row, count in sorted(rows.items(), key=lambda it: (-it[1], it[0])):
            if count:
                words = [*row, span(lines.get(row, ()))] if self.by == "function" else row
                self.say(f"{count:>10} {100 * count / total:5.1f}%  {'  '.join(it for it in words if it)}")


def span(lines):
    """The first and the last line of each file, in words."""
    files = {}
    for line in lines:
        file, _, number = line.rpartition(":")
        files.setdefault(file, []).append(int(number))
    return ", ".join(f"{file}:{min(found)}" + (f"-{max(found)}" if len(found) > 1 else "") for file, found in sorted(files.items()))


class Tracer:
    """The sandboxes of a world, which get turns until all have stopped or each has done its steps."""

    def __init__(self, world, given, watch):
        self.world, self.console, self.watch = world, Console(world, given), watch
        self.due = [0 for _ in world]  # at which step of each sandbox the next look comes

    def look(self, sandbox, pc):
        """Has the watch look at what comes, where it is due. How many steps may be done without another look."""
        steps = sandbox.steps
        if steps >= self.due[sandbox.number]:
            self.watch.before(sandbox, pc)
            self.due[sandbox.number] = steps + self.watch.every
        return self.due[sandbox.number] - steps

    def turn(self, sandbox, steps):
        """A turn as `Console.turn` has it."""
        end, event = sandbox.steps + steps, sandbox.event
        while (left := end - sandbox.steps) > 0 and isinstance(event, (Ready, Call)):
            pc = sandbox.pc
            free = self.look(sandbox, pc)
            if isinstance(event, Call):
                goes_on = self.console.serve(event)
                self.watch.call(sandbox, event)
                if not goes_on:
                    return
                event = sandbox.event
            else:
                event = sandbox.turn(min(left, free, (1 << 32) - 1))
                self.watch.after(sandbox, pc, event)

    def run(self, steps, quantum):
        """Rounds of a turn each, until each has stopped or has no step left of these: the lines of `sfi run`."""
        running = True
        while running:
            running = False
            for sandbox in self.world:
                left = steps - sandbox.steps
                if left > 0 and isinstance(sandbox.event, (Ready, Call)):
                    self.turn(sandbox, min(quantum, left))
                    running = True
        self.watch.end()
        return [self.console.line(sandbox) for sandbox in self.world]
