#!/usr/bin/env python3
"""Whether what `sfi` accepts keeps to its sandbox, on an independent machine.

    fuzz/escapes.py [--program PATH] [--rounds N] [--seconds S] [--plant RULE] [SEED ..]

Each case is an image in one of the four formats that `sfi check` accepts: random code in which findings were mended until there
was none, or an accepted image with changes. Each sandbox is entered at random places with random registers, as far as its format
allows, and run by machine.py of tools/suygapid/trials on data of addresses and random bytes; others change data at random, and a host's reply changes
all registers that it may. No run may leave the code, reach what is no instruction, call at no gate, write a reserved register, or
access anything but the data and the guard zones (with single masks also that at zero), where it traps. In half of the runs the result of each computation but and, or
and addi, and whether a branch is taken, is random: no rule knows of these. `--plant V5` takes images that break rule V5 alone:
then it has to find an escape.
"""
import functools
import os
import struct
import sys

TOP = os.path.dirname(os.path.dirname(os.path.abspath(__file__)))
sys.dont_write_bytecode = True
sys.path.insert(0, os.path.join(TOP, "tools"))
from suygapid.image import layout
from suygapid.isa.decoding import LOADS, WIDTHS
from suygapid.trials import corpus, fuzzing, machine, measure, odd_images, odd_words
from suygapid.trials.worlds import DATA_REGISTERS

IN_FORMAT = {1: "in the first format", 2: "in the second format", 3: "in words", 4: "with single masks"}
NAMES = [f"{what} {it}" for what in ("verdicts of images", "runs") for it in IN_FORMAT.values()]
MOST_ENTRIES, STEPS, NEAR, MASK = 64, 150, 1020, 0xFFFFFFFF
FIRST_RESERVED = 24
KNOWN = ("and", "or", "addi")  # the computations whose results the rules count on


class Hostile(machine.Machine):
    """A sandbox in an environment that does all that the theorem allows."""

    def __init__(self, part, pick):
        super().__init__(part)
        self.pick, self.is_loose = pick, False
        self.reserved = {number: value for number, value in enumerate(part.reserved(), FIRST_RESERVED)
                         if number not in DATA_REGISTERS.get(part.format, ())}
        self.change_data(0, part.data_size if part.data_size <= 1024 else 1024)

    def word(self):
        """A number that leads somewhere: to an end of a region, or anywhere."""
        part, pick = self.part, self.pick
        code, data = part.code_base, part.data_base
        near = [0, 1, MASK, code, code + part.code_size, code + pick.randrange(part.code_size), data, data + part.data_size,
                data + pick.randrange(part.data_size), data - 4096, data + part.data_size + 4096, pick.getrandbits(32)]
        return pick.choice(near) & MASK

    def set_registers(self):
        """As at an entry, or after a reply: the reserved and typed ones as they must be, the others as hostile as may be."""
        part, pick = self.part, self.pick
        self.x = [0] + [self.word() for _ in range(31)]
        for register, value in self.reserved.items():
            self.x[register] = value
        data, size = part.data_base, part.data_size
        if part.format == 2:
            self.x[2] = data + pick.choice([0, size - 1, pick.randrange(size)])
        for register in DATA_REGISTERS.get(part.format, ()):
            near = data + pick.choice([-NEAR, size + NEAR - 1, pick.randrange(-NEAR, size + NEAR)])
            self.x[register] = near if part.format == layout.WORDS else pick.choice([near, 0, size - 1, pick.randrange(size)])
        if part.format in DATA_REGISTERS:
            self.x[30] = part.code_base + pick.randrange(0, part.code_size, 4)
        if part.format == layout.WORDS:
            self.x[31] = pick.choice([0, size - 1, pick.randrange(size)])

    def change_data(self, begin, length):
        words = b"".join(struct.pack("<I", self.word()) for _ in range(length // 4 + 1))
        self.data[begin : begin + length] = words[:length]

    def interrupt(self):
        """Others change data, as a neighbour or a host may."""
        self.change_data(self.pick.randrange(0, self.part.data_size, 4), 4)

    def access(self, it, at, value):
        """A load into x0 may be dropped, and then traps nowhere."""
        is_dropped = it.op in LOADS and it.rd == 0 and self.pick.random() < 0.5
        return None if is_dropped else super().access(it, at, value)

    def result(self, op, a, b):
        return super().result(op, a, b) if not self.is_loose or op in KNOWN else self.word()

    def is_taken(self, op, a, b):
        return self.pick.random() < 0.5 if self.is_loose else super().is_taken(op, a, b)

    def why_unsafe(self, stop):
        """Why a step that wasn't done isn't safe; None where it ends the run safely or is a call at a gate."""
        if stop.cause in (machine.FETCH, machine.ILLEGAL):
            return f"reaches no instruction at {stop.at:08x}"
        if stop.cause == 0 and stop.at not in self.part.gates:
            return f"calls at no gate, at {stop.at:08x}"
        if stop.cause in (machine.LOAD, machine.STORE):
            length = WIDTHS[self.fetch().op]
            place = stop.at - self.part.data_base
            if not self.is_in_zone(stop.at, length) and not -layout.GUARD <= place <= self.part.data_size + layout.GUARD - length:
                return f"accesses {stop.at:08x}, at {self.pc:08x}"
        return None

    def is_in_zone(self, at, length):
        """Whether all of an access lies in the zone at zero, which goes round: one may begin below 2^32 and end above 0."""
        return all(any(begin <= address & MASK < end for begin, end in self.part.zones()) for address in range(at, at + length))

    def escape(self, entry):
        """Why a run from `entry` isn't safe within STEPS steps; None where it is."""
        self.pc, self.is_loose = entry, self.pick.random() < 0.5
        self.set_registers()
        for _ in range(STEPS):
            if not self.part.has_code(self.pc):
                return f"leaves the code, to {self.pc:08x}"
            stop = self.step()
            if stop:
                why = self.why_unsafe(stop)
                if why or stop.cause:
                    return why
                self.set_registers()
                self.pc += 4
            elif any(self.x[register] != value for register, value in self.reserved.items()):
                return f"writes a reserved register before {self.pc:08x}"
            if self.pick.random() < 0.05:
                self.interrupt()
        return None


def first_escape(part, pick):
    """Of a run from each entry, or from MOST_ENTRIES where there are more, the first that isn't safe, and why."""
    hostile = Hostile(part, pick)
    entries = range(part.code_base, part.code_base + part.code_size, part.unit())
    for entry in pick.sample(entries, min(len(entries), MOST_ENTRIES)):
        why = hostile.escape(entry)
        if why:
            return f"entered at {entry:08x}, it {why}"
    return None


def candidate(pick, program):
    """An image that may be mended to an accepted one."""
    if pick.random() < 0.3:
        return corpus.mutant(pick, corpus.accepted(pick, program), tuple(corpus.CODE_CHANGES))
    return random_image(pick, pick.choice([1, 2, 3, 3, 4, 4]))


def random_image(pick, format):
    if format < 3:
        return odd_images.odd_image(pick.getrandbits(32), pick.choice([1, 2]), 256, format)
    return odd_words.small_image(pick.getrandbits(32), format)


def try_image(pick, data, findings, planted, tally):
    """Runs what becomes of the image where all findings are mended but those of the planted rules. Gives the image."""
    data = corpus.repaired(findings, data, frozenset(planted))
    if data is None:
        return None
    parts = layout.parts(data)
    for part in parts:
        tally.see(f"runs {IN_FORMAT[part.format]}", None, first_escape(part, pick), data)
    return data


def see_verdict(program, data, tally):
    """`check --raw` has to accept what `check --report` found nothing in."""
    parts = layout.parts(data)
    expected = f"accepted sandboxes={len(parts)} bundles={sum(part.code_size for part in parts) // 16}"
    found = fuzzing.run([program, "check", "--raw"], data).lines
    tally.see(f"verdicts of images {IN_FORMAT[parts[0].format]}", [expected], found, data)


def main(words=None):
    parser = fuzzing.options(__doc__, 150)
    parser.add_argument("--plant", action="append", default=[], metavar="RULE", help="take images that break this rule")
    given = parser.parse_args(words)
    program = measure.program_at(given.program)
    tally = fuzzing.tally_of(parser, given, [] if given.plant else NAMES)
    findings = functools.partial(corpus.findings_of, program)
    for tally.case, pick in fuzzing.cases(given):
        data = try_image(pick, candidate(pick, program), findings, given.plant, tally)
        if data and not given.plant:
            see_verdict(program, data, tally)
    return tally.end()


if __name__ == "__main__":
    sys.exit(main())
