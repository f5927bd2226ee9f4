#!/usr/bin/env python3
"""Whether native code does what the interpreter does: each step, register and byte of data, however turns are cut.

    fuzz/native_code.py [--library PATH] [--commands PATH] [--program PATH] [--rounds N] [--seconds S] [--plant] [SEED ..]

Each case is an image that is accepted, in one of the four formats: an example, random code, or one of these with changes; its data are
whole pages. It is run by libsfi_run_native, which is made of --library and --commands, and by libsfi_run. Both get the same calls:
turns of a few or many steps, replies, exits, callbacks, other registers, entries, stops, resets, other data; signals come meanwhile.
After each call the answers are compared, and of each sandbox the event, steps, pc, registers and data. Then it is run by the
console's services in both ways, and by `sfi run`: the lines are compared, with pc, registers and data. With --plant native code gets
an image with another instruction somewhere: then it has to fail. A case in which the code ends the process is told. It wants gcc.
"""
import faulthandler
import mmap
import os
import signal
import sys
import tempfile
import traceback

TOP = os.path.dirname(os.path.dirname(os.path.abspath(__file__)))
sys.dont_write_bytecode = True
sys.path.insert(0, os.path.join(TOP, "tools"))
import beside
from suygapid.image import layout
from suygapid.trials import corpus, fuzzing, guarded, lives, measure, natively, verdicts, worlds

KINDS = dict(turn=30, reply=20, write=8, enter=8, set_registers=6, call_back=5, call=4, stop=3, until=2, exit=2, reset=2, read=2)
FORMATS = {1: "images in the first format", 2: "images in the second format", 3: "images in words", layout.SINGLE: "images with single masks"}
NAMES = [*FORMATS.values(), *KINDS, *beside.SEEN, "all data", "lines of sfi run", "outcomes of libsfi_run", "pc and registers of sfi run"]
CALLS_OF_AN_IMAGE = 40
EDGES = [0, 1, 63, 64, 65, 66, 127, 128, 129, 130]  # steps near those of one distance between heads
MOST_STEPS = 50000
TICK = 0.0005  # seconds between two signals
ROUNDS, QUANTA = [1, 2, 3, 7], [1, 13, 64, 65, 66, 128, 500, 2000, MOST_STEPS]


class Arguments(beside.Arguments):
    """Those of turns that native code takes a part of."""

    def steps(self):
        pick = self.pick
        return pick.choice([pick.choice(EDGES), pick.randrange(200), pick.randrange(5000), pick.randrange(MOST_STEPS)])

    def until(self):
        stops, _ = super().until()
        return stops, self.pick.randrange(300)


class Beside(beside.Beside):
    """A world of native code, of `compiled`, and the twins of its sandboxes in worlds of libsfi_run, of `image`."""

    arguments = Arguments

    def __init__(self, pick, images, native, new_twin_world, tally):
        self.pick, self.tally, self.shared, self.new_twin_world = pick, tally, native, new_twin_world
        self.image, self.compiled = images
        self.twins = []

    def begin(self):
        self.shared.load(self.compiled)
        self.twins = self.twins_of(self.image)
        return self.is_seen_alike()

    def change(self):
        same = self.call_one(*self.pick.choices(list(KINDS), KINDS.values()))
        return self.is_seen_alike() and same

    def live(self):
        if self.begin() and all(self.change() for _ in range(CALLS_OF_AN_IMAGE)):
            for number, twin in enumerate(self.twins):
                all_of = twin.part.data_base, twin.part.data_size, twin.part.data_size
                self.tally.see("all data", twin.read(*all_of), self.shared.read(number, *all_of), twin.image)
        for it in [self.shared, *self.twins]:
            it.free()


# ---- images


def with_pages(pick, data):
    """The image with data of whole pages; None where they have no place."""
    for size in pick.sample(guarded.SIZES, len(guarded.SIZES)):
        larger = guarded.with_data(data, size)
        try:
            layout.parts(larger)
        except layout.Fault:
            continue
        return larger
    return data if natively.has_pages(data) else None


def without_code(image):
    """What is the same of images that differ in their code alone."""
    for part in layout.parts(image):
        image = image[: part.code_offset] + bytes(part.code_size) + image[part.code_offset + part.code_size :]
    return image


class Images:
    """Makes random images that are accepted."""

    def __init__(self, program, judge):
        self.program, self.judge = program, judge

    def small(self, pick):
        choice = pick.random()
        if choice < 0.3:
            return pick.choice(corpus.examples(self.program))
        if choice < 0.55:
            return corpus.small_accepted(pick)
        if choice < 0.6:
            return guarded.edges(pick, self.program, pick.choice(list(guarded.FORMATS)))
        if choice < 0.85:
            return corpus.repaired(lives.findings_by(self.judge), corpus.odd(pick))
        return corpus.mutant(pick, corpus.accepted(pick, self.program), tuple(corpus.CODE_CHANGES))

    def make(self, pick):
        while True:
            found = self.small(pick)
            if found and self.judge.verdict(found).status == 0 and (larger := with_pages(pick, found)):
                return larger

    def with_another_instruction(self, pick, image):
        """An image that is accepted and differs from this one in its code alone."""
        while True:
            changed = corpus.mutant(pick, image, tuple(corpus.CODE_CHANGES))
            if changed != image and self.judge.verdict(changed).status == 0 and without_code(changed) == without_code(image):
                return changed


# ---- a case


class Trial:
    def __init__(self, given, folder, tally):
        self.program, self.is_planted, self.tally = given.program, given.plant, tally
        self.judge = verdicts.Judge(folder)
        self.images = Images(self.program, self.judge)
        self.native_path = natively.library(given.library, given.commands, folder)
        self.native = worlds.Calls(self.native_path)
        self.path = worlds.linked(given.library, folder)
        self.interpreted = worlds.Calls(self.path)

    def try_one(self, pick):
        image = self.images.make(pick)
        compiled = self.images.with_another_instruction(pick, image) if self.is_planted else image
        what = FORMATS[layout.parts(image)[0].format]
        if not self.tally.see(what, True, self.is_native(compiled), image):
            return
        Beside(pick, (image, compiled), worlds.Library(self.native), lambda: worlds.Library(self.interpreted), self.tally).live()
        self.see_console(pick, image, compiled)

    def is_native(self, image):
        """Whether the image is loaded into a world that runs by native code."""
        world = worlds.Library(self.native)
        world.load(image)
        found = natively.is_native(self.native_path, world)
        world.free()
        return found

    def see_console(self, pick, image, compiled):
        """The image with the console's services, by three ways to run it."""
        options = pick.choice(ROUNDS), pick.choice(QUANTA), pick.randbytes(pick.choice([0, 1, 40]))
        found = natively.outcomes(self.native_path, self.native, compiled, options)
        wanted = natively.outcomes(self.path, self.interpreted, image, options)
        self.tally.see("outcomes of libsfi_run", wanted, found, image)
        report = fuzzing.output(natively.run_words(self.program, options), image)
        lines, places = natively.told(report)
        self.tally.see("lines of sfi run", lines, [it.line for it in found], image)
        self.tally.see("pc and registers of sfi run", places, {number: found[number].registers for number in places}, image)


def run(given, tally, now):
    """The status of all cases. `now` is a place for the name of the one that is tried."""
    with tempfile.TemporaryDirectory() as folder:
        trial = Trial(given, folder, tally)
        faulthandler.enable()
        signal.signal(signal.SIGALRM, lambda number, frame: None)
        signal.setitimer(signal.ITIMER_REAL, TICK, TICK)
        for tally.case, pick in fuzzing.cases(given):
            now[:len(tally.case) + 1] = tally.case.encode() + b"\0"
            faulthandler.dump_traceback_later(fuzzing.MOST_SECONDS, exit=True)
            trial.try_one(pick)
        faulthandler.cancel_dump_traceback_later()
        signal.setitimer(signal.ITIMER_REAL, 0)
    return tally.end()


def in_child(work):
    """The status of work that a child does, since native code may end its process: then the case that it names in `now` is told."""
    now = mmap.mmap(-1, mmap.PAGESIZE)
    sys.stdout.flush()
    child = os.fork()
    if child == 0:
        status = 1
        try:
            status = work(now)
        except Exception:  # else nothing of it is told
            traceback.print_exc()
        finally:
            sys.stdout.flush()
            os._exit(status)
    status = os.waitstatus_to_exitcode(os.waitpid(child, 0)[1])
    if status not in (0, 1):
        print(f"DIFFERS the code ended its process with status {status}, seed {now[:].split(bytes(1))[0].decode()}\n0 passed, 1 failed")
    return min(abs(status), 1)


def main(words=None):
    parser = fuzzing.options(__doc__, 150)
    parser.add_argument("--library", default=worlds.LIBRARY)
    parser.add_argument("--commands", default=natively.COMMANDS)
    parser.add_argument("--plant", action="store_true", help="run the code of an image with another instruction")
    given = parser.parse_args(words)
    if why := natively.why_not():
        return fuzzing.all_skipped(len(NAMES), "native code", why)
    for path in (given.library, given.commands):
        if not os.path.exists(path):
            sys.exit(f"fuzz: no library {path}: (cd crates/{os.path.basename(path)[3:-2]} && rt lib) builds it")
    given.program = measure.program_at(given.program)
    tally = fuzzing.tally_of(parser, given, [] if given.plant else NAMES)
    return in_child(lambda now: run(given, tally, now))


if __name__ == "__main__":
    sys.exit(main())
