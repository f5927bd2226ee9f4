#!/usr/bin/env python3
"""Whether sandboxes that share a world, into which others come and from which they go, answer as each does alone.

    fuzz/beside.py [--library PATH] [--program PATH] [--rounds N] [--seconds S] [--plant FAULT] [SEED ..]

Each case is the life of a world of libsfi_run: modules of the examples, in the four formats and at different places, are added to it,
and its sandboxes are removed, in any order; meanwhile they get turns, also up to addresses, replies, exits, callbacks, registers,
entries, stops, resets, reads and writes. Each sandbox has a twin in a world of its own, which gets the same calls. After each
call the answers have to be the same, and of each sandbox the event, steps, registers, and data. What an add answers is as the regions
say. --library is a libsfi_run.a that rt built, or a shared library; with `--library model` the shared world is one of its model
(tools/suygapid/trials/worlds.py), as the twins are, to try the script itself, and `--plant FAULT` gives it a fault: then it has to fail. It wants gcc.
"""
import faulthandler
import os
import sys
import tempfile

TOP = os.path.dirname(os.path.dirname(os.path.abspath(__file__)))
sys.dont_write_bytecode = True
sys.path.insert(0, os.path.join(TOP, "tools"))
from suygapid.image import layout
from suygapid.trials import corpus, fuzzing, lives, measure, verdicts, worlds

CALLS_OF_A_WORLD = 80
MODULES = 6  # of a world
MOST_SANDBOXES = 12  # then one is removed
MOST_IMAGE = 20000  # larger ones take too long
MOST = (1 << 32) - 1
SLOTS = 24  # so many places at which code may lie, and so many for data
CODE, DATA = 0x02000000, 0x40000000
OFFSETS = 12  # of an image's places from those, in units of 1024 bytes
LOWEST_BIT = 27  # of data where masks are single: above the code
PIECE = 1024  # how many bytes of a larger data region are compared after each call
SANDBOX_KINDS = dict(turn=24, until=6, event=2, reply=16, exit=3, call_back=6, set_registers=5, stop=3, reset=4, read=6, write=6,
                     enter=6, call=4)
KINDS = ["add", "remove", *SANDBOX_KINDS]
SEEN = ["events", "steps", "all registers", "regions", "data"]
NAMES = [*KINDS, *SEEN, "count"]


class Twin:
    """A sandbox in a world of its own, as the one of that number."""

    def __init__(self, new_world, image, number):
        self.world, self.image, self.number = new_world(), image, number
        self.part = layout.parts(image)[number]
        self.world.load(image)
        self.kept = []  # the pc and registers of calls at which it was called back

    def __getattr__(self, kind):
        call = getattr(self.world, kind)
        return lambda *arguments: call(self.number, *arguments)

    def free(self):
        self.world.free()


class Arguments:
    """Random arguments of a call on a sandbox, after its number."""

    def __init__(self, pick, twin):
        self.pick, self.twin, self.part = pick, twin, twin.part

    def word(self):
        return self.pick.choice([0, 1, MOST, 1 << 31, self.pick.getrandbits(32)])

    def words(self):
        return [self.word() for _ in range(8)]

    def steps(self):
        return self.pick.choice([0, 1, 2, 3, self.pick.randrange(60), self.pick.randrange(60), 400])

    def code_address(self):
        place = self.pick.randrange(self.part.code_size)
        base = self.part.code_base
        return self.pick.choice([base + place // 16 * 16] * 5 + [base + place, (base - 16) & MOST])

    def piece(self):
        """An address and a length, mostly in the data."""
        base, size = self.part.data_base, self.part.data_size
        at = self.pick.choice([base, base + self.pick.randrange(size), base - 1, base + size])
        return at & MOST, self.pick.choice([0, 1, 4, self.pick.randrange(300), size])

    def turn(self):
        return (self.steps(),)

    def until(self):
        return [self.code_address() for _ in range(self.pick.randrange(1, 4))], self.steps()

    def event(self):
        return ()

    stop = reset = event

    def reply(self):
        return self.word(), self.word()

    def exit(self):
        return (self.word(),)

    def enter(self):
        return self.code_address(), self.words()

    call_back = enter

    def call(self):
        return self.code_address(), self.words(), self.steps()

    def set_registers(self):
        """Those of a call at which it was called back, or its own with a change."""
        if self.twin.kept and self.pick.random() < 0.6:
            return (self.twin.kept.pop(),)
        registers = self.twin.registers()
        registers[0] = self.pick.choice([registers[0], self.code_address()])
        registers[self.pick.randrange(2, 33)] = self.word()
        return (registers,)

    def read(self):
        at, length = self.piece()
        return at, length, length + self.pick.choice([0, 0, 1, 9])

    def write(self):
        at, length = self.piece()
        return at, self.pick.randbytes(length)


class Beside:
    """A shared world, and the twins of its sandboxes in the order of their numbers."""

    arguments = Arguments  # what makes those of a call

    def __init__(self, pick, images, shared, new_twin_world, tally):
        self.pick, self.tally, self.shared, self.new_twin_world = pick, tally, shared, new_twin_world
        self.images = [self.placed(pick.choice(images)) for _ in range(MODULES)]
        self.modules = [shared.module(it) for it in self.images]
        self.twins = []

    def placed(self, image):
        """The image with its sandboxes at random ones of few places: so modules meet at times, some in the guard zones alone."""
        parts = layout.parts(image)
        code_step, data_step = (2 * max(sizes) for sizes in zip(*((it.code_size, it.data_size) for it in parts)))
        code, data = (self.pick.sample(range(SLOTS), len(parts)) for _ in range(2))
        offset = 1024 * self.pick.randrange(OFFSETS)
        bits = self.pick.sample(range(LOWEST_BIT, 32), len(parts))

        def place_of(part):
            code_at, data_at = code_step * code.pop() + offset, (data_step + 2 * layout.GUARD) * data.pop() + offset
            data_base = 1 << bits.pop() if part.format == layout.SINGLE else DATA + data_at // part.data_size * part.data_size
            return CODE + code_at // part.code_size * part.code_size, data_base

        return layout.moved(image, place_of)

    def twins_of(self, image):
        return [Twin(self.new_twin_world, image, number) for number in range(len(layout.parts(image)))]

    def add(self):
        chosen = self.pick.randrange(MODULES)
        image = self.images[chosen]
        if any(part.meets(it.part) for part in layout.parts(image) for it in self.twins):
            wanted = worlds.MEETS, worlds.FILL
        else:
            wanted = worlds.CHANGED, len(self.twins)
            self.twins += self.twins_of(image)
        return self.tally.see("add", wanted, self.shared.add(self.modules[chosen]), image)

    def remove(self):
        number = self.pick.choice([self.pick.randrange(len(self.twins) + 1), 0, len(self.twins) - 1 if self.twins else MOST])
        wanted = worlds.CHANGED if number < len(self.twins) else worlds.NO_SANDBOX
        same = self.tally.see("remove", wanted, self.shared.remove(number))
        if wanted == worlds.CHANGED:
            self.twins.pop(number).free()
        return same

    def call_one(self, kind):
        """A call on one of the sandboxes, or on one that isn't there, which the twins' worlds don't have either."""
        if not self.twins:
            return True
        number = self.pick.randrange(len(self.twins))
        twin = self.twins[number]
        arguments = getattr(self.arguments(self.pick, twin), kind)()
        if self.pick.random() < 0.04:
            absent = len(self.twins) + self.pick.choice([16, 255, 1 << 31])
            return self.tally.see(kind, getattr(twin.world, kind)(absent, *arguments), getattr(self.shared, kind)(absent, *arguments))
        wanted, found = getattr(twin, kind)(*arguments), getattr(self.shared, kind)(number, *arguments)
        if kind == "call_back" and wanted[0]:
            twin.kept.append(wanted[1])
        return self.tally.see(kind, wanted, found, twin.image)

    def is_seen_alike(self):
        same = [self.tally.see("count", len(self.twins), self.shared.count())]
        for number, twin in enumerate(self.twins):
            for name, call in zip(SEEN, ("event", "steps", "registers", "region")):
                same.append(self.tally.see(name, getattr(twin, call)(), getattr(self.shared, call)(number), twin.image))
            base, size = twin.part.data_base, twin.part.data_size
            length = min(size, PIECE)
            piece = base + self.pick.randrange(0, size, length), length, length
            same.append(self.tally.see("data", twin.read(*piece), self.shared.read(number, *piece), twin.image))
        return all(same)

    def begin(self):
        """A world of the first module, whose sandboxes are all there is."""
        self.shared.instance(self.modules[0])
        self.twins = self.twins_of(self.images[0])
        return self.is_seen_alike()

    def change(self):
        """One call, and all that can be seen after it."""
        choice = self.pick.random()
        if choice < 0.12 and len(self.twins) < MOST_SANDBOXES:
            same = self.add()
        elif choice < 0.18 or len(self.twins) >= MOST_SANDBOXES:
            same = self.remove()
        else:
            same = self.call_one(*self.pick.choices(list(SANDBOX_KINDS), SANDBOX_KINDS.values()))
        if self.pick.random() < 0.05:
            self.shared.move()
        return self.is_seen_alike() and same

    def live(self):
        """Its life ends at its last call, or where something differs."""
        if self.begin():
            for _ in range(CALLS_OF_A_WORLD):
                if not self.change():
                    break
        for it in [self.shared, *self.twins]:
            it.free()


def images_of(program):
    """Those of the examples that have a few bytes, so that a world is made fast."""
    return [it for it in corpus.examples(program) if len(it) <= MOST_IMAGE]


def main(words=None):
    parser = fuzzing.options(__doc__, 20)
    parser.add_argument("--library", default=worlds.LIBRARY)
    parser.add_argument("--plant", choices=sorted(worlds.PLANTS_BESIDE), help="give the shared model this fault")
    given = parser.parse_args(words)
    if not fuzzing.has_gcc():
        return fuzzing.all_skipped(len(NAMES), "worlds with sandboxes that come and go", "gcc isn't there")
    if given.library != "model" and not os.path.exists(given.library):
        sys.exit(f"fuzz: no library {given.library}: (cd crates/sfi_run && rt lib) builds it")
    images = images_of(measure.program_at(given.program))
    with tempfile.TemporaryDirectory() as folder:
        judge = verdicts.Judge(folder)
        shared = worlds.PLANTS_BESIDE.get(given.plant, worlds.Model)
        new_twin_world, _, why = lives.open_library(given.library, folder, lambda: worlds.Model(judge))
        if why:
            return fuzzing.all_skipped(len(NAMES), "worlds with sandboxes that come and go", why)
        tally = fuzzing.tally_of(parser, given, NAMES)
        faulthandler.enable()
        for tally.case, pick in fuzzing.cases(given):
            faulthandler.dump_traceback_later(fuzzing.MOST_SECONDS, exit=True)
            Beside(pick, images, shared(judge) if given.library == "model" else new_twin_world(), new_twin_world, tally).live()
        faulthandler.cancel_dump_traceback_later()
    return tally.end()


if __name__ == "__main__":
    sys.exit(main())
