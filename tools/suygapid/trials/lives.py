"""The life of a world: random calls of libsfi_run and of a model of it, and what is compared after each; and images for that."""
from suygapid.trials import corpus, worlds

CALLS_OF_A_WORLD = 80
MOST = (1 << 32) - 1
WRONG_NUMBERS = [16, 255, 1 << 31, MOST]
KINDS = ["load", "turn", "event", "reply", "exit", "stop", "reset", "read", "write", "enter", "call", "free"]
SEEN = ["events", "steps", "registers", "regions", "data"]
NAMES = [*KINDS, *SEEN, "count", "version"]
WEIGHTS = dict(load=3, turn=30, event=3, reply=20, exit=3, stop=4, reset=3, read=10, write=10, enter=8, call=6, free=1)
PIECE = 4096  # how many bytes of a larger data region are compared after each call


class World:
    """The library and the model with the same history."""

    def __init__(self, pick, images, library, model, tally):
        self.pick, self.images, self.library, self.model, self.tally = pick, images, library, model, tally
        self.image = b""

    # ---- arguments

    def word(self):
        return self.pick.choice([0, 1, MOST, 1 << 31, self.pick.getrandbits(32)])

    def number(self):
        count = self.model.count()
        wrong = self.pick.random() < 0.05 or not count
        return self.pick.choice([count, *WRONG_NUMBERS]) if wrong else self.pick.randrange(count)

    def region(self, number):
        return self.model.region(number) or (0x01800000, 256)

    def data_address(self, number):
        base, size = self.region(number)
        inside = base + self.pick.randrange(size)
        edges = [base - 1, base, base + size - 1, base + size, base - 4096, base + size + 4095, 0, MOST, self.word()]
        return self.pick.choice([inside, inside, *edges]) & MOST

    def length(self, number, at):
        """Mostly few bytes, or as many as there are, or one more."""
        base, size = self.region(number)
        left = min(max(0, base + size - at), size)
        return self.pick.choice([0, 1, 2, 4, self.pick.randrange(300), left, left + 1, size, size + 1])

    def code_address(self, number):
        sandbox = self.model.at(number)
        if not sandbox:
            return self.word()
        base, size = sandbox.part.code_base, sandbox.part.code_size
        place = self.pick.randrange(size)
        return self.pick.choice([base + place // 16 * 16] * 4 + [base + place // 4 * 4, base + place, base - 16, base + size, 0])

    # ---- calls

    def load(self):
        self.image = self.images(self.pick)
        return (self.image,)

    def turn(self):
        steps = self.pick.choice([0, 1, 2, 3, self.pick.randrange(60), self.pick.randrange(60), 400])
        return self.number(), steps

    def reply(self):
        return self.number(), self.word(), self.word()

    def exit(self):
        return self.number(), self.word()

    def read(self):
        number = self.number()
        at = self.data_address(number)
        length = self.length(number, at)
        room = max(0, length + self.pick.choice([0, 0, 0, 1, 9, -1, -length]))
        if self.pick.random() < 0.03:
            length = self.pick.choice([1 << 32, (1 << 32) + 8, (1 << 63) - 1, (1 << 64) - 1])
        return number, at, length, room

    def write(self):
        number = self.number()
        at = self.data_address(number)
        given = self.pick.randbytes(self.length(number, at))
        return number, at, given

    def enter(self):
        number = self.number()
        return number, self.code_address(number), [self.word() for _ in range(8)]

    def call(self):
        number, steps = self.turn()
        return number, self.code_address(number), [self.word() for _ in range(8)], steps

    def event(self):
        return (self.number(),)

    stop = reset = event

    def free(self):
        return ()

    def compare(self, kind):
        """One call of that kind, and all that can be seen after it."""
        arguments = getattr(self, kind)()
        expected, found = (getattr(it, kind)(*arguments) for it in (self.model, self.library))
        same = self.tally.see(kind, expected, found, self.image)
        if self.pick.random() < 0.05:
            self.library.move()
        return self.is_seen_alike() and same

    def is_seen_alike(self):
        see, model, library = self.tally.see, self.model, self.library
        same = [see("count", model.count(), library.count(), self.image)]
        for number in range(model.count()):
            same += [see("events", model.event(number), library.event(number), self.image),
                     see("steps", model.steps(number), library.steps(number), self.image),
                     see("registers", model.registers(number), library.registers(number), self.image),
                     see("regions", model.region(number), library.region(number), self.image)]
            piece = self.piece(number)
            same.append(see("data", model.read(*piece), library.read(*piece), self.image))
        return all(same)

    def piece(self, number):
        """What of its data is compared: all, but for large regions."""
        base, size = self.region(number)
        if size <= PIECE or self.pick.random() < 0.01:
            return number, base, size, size
        return number, base + self.pick.randrange(0, size, PIECE), PIECE, PIECE

    def live(self):
        """Its life ends at its last call, or where it differs."""
        if not self.compare("load"):
            return
        kinds, weights = list(WEIGHTS), list(WEIGHTS.values())
        for kind in self.pick.choices(kinds, weights, k=CALLS_OF_A_WORLD):
            if not self.compare(kind):
                break
        self.library.free()


def findings_by(judge):
    """The status and findings of an image, as corpus.repaired asks for them."""

    def findings(data):
        verdict = judge.verdict(data)
        return verdict.status, verdict.findings

    return findings


def image_maker(program, judge):
    """Gives an image: one of the examples, random code that keeps the rules, with gates, or one with changes."""
    findings = findings_by(judge)

    def make(pick):
        choice = pick.random()
        if choice < 0.65:
            found = pick.choice(corpus.examples(program)) if choice < 0.5 else corpus.small_accepted(pick)
            return corpus.with_room(pick, found) if pick.random() < 0.2 else found
        if choice < 0.85:
            return corpus.repaired(findings, corpus.odd(pick)) or b"SFI1"
        return corpus.mutant(pick, corpus.accepted(pick, program))

    return make


def open_library(path, folder, model):
    """Gives what makes worlds of the library, and its version; or why it can't be tried."""
    if path == "model":
        return model, worlds.header_version(), None
    try:
        calls = worlds.Calls(worlds.linked(path, folder))
    except AttributeError as error:
        return None, 0, f"the library is older than this script: {error}"
    return lambda: worlds.Library(calls), calls.version(), None
