"""Updates by chance on a flash that loses its power at any write, beside a model of what device/sfi_device_store.h says: after
each call the record is the model's, and after a cut one that the call passes through."""
import ctypes
import dataclasses
import hashlib
import random

from suygapid.trials.flash import PIECES, Flash, Misused
from suygapid.trials.store import (AREAS, ERASE, IS_SIGNED, PROGRAM, RAISE_COUNTER, READ, READ_COUNTER, STATES, STATUSES, WATCH, Claim,
                                   Functions, Store)

TRIAL_STARTS = 2
SHAPES = ((256, 16), (512, 8), (768, 64), (1024, 256))  # of a flash: a sector's bytes and a page's
AREA_SECTORS = 2
KEY = b"the vendor's"
NONE = ("none", 0, 0, 0)  # a version: its state, starts, sequence number and least sequence number


class Wrong(Exception):
    """What the store did otherwise than the model."""


@dataclasses.dataclass(frozen=True)
class State:
    """What a record says, but for its versions' images."""
    versions: tuple = (NONE,) * AREAS
    latest: int = 0
    least: int = 0

    def with_version(self, area, version):
        return dataclasses.replace(self, versions=tuple(version if at == area else it for at, it in enumerate(self.versions)))

    def with_state(self, area, state, starts):
        return self.with_version(area, (state, starts, *self.versions[area][2:]))

    def best(self):
        """The area of the highest sequence number of those that may run, or None."""
        areas = [at for at in range(AREAS) if self.versions[at][0] not in ("none", "bad")]
        return max(areas, key=lambda at: self.versions[at][2], default=None)


@dataclasses.dataclass(frozen=True)
class Update:
    sequence: int
    least: int
    image: bytes
    length: int
    digest: bytes
    is_signed: bool

    def claim(self):
        return Claim(self.sequence, self.least, self.length, (ctypes.c_ubyte * 32)(*self.digest))

    def signature(self):
        signed = hashlib.sha512(KEY + bytes(self.claim())).digest()
        return (ctypes.c_ubyte * 64)(*(signed if self.is_signed else signed[::-1]))


def right(sequence, least, image):
    return Update(sequence, least, image, len(image), hashlib.sha256(image).digest(), True)


class Walk:
    def __init__(self, library, seed, shape):
        self.library, self.chance = library, random.Random(seed)
        sector, page = shape
        self.area_size = AREA_SECTORS * sector
        self.flash = Flash((2 + AREAS * AREA_SECTORS) * sector, sector, page, self.chance)
        self.functions = Functions(sector, page, READ(self.flash.read), ERASE(self.flash.erase_sector), PROGRAM(self.flash.program_page))
        self.counter, self.watched = 0, False
        self.most_kept = 0                      # the highest sequence number of a version of which the firmware called keep
        self.model, self.images = State(), {}   # images: by sequence number, of versions that may be on record
        self.chosen, self.rotten = None, set()  # areas: the one that runs, and those whose image was changed
        self.power_on([self.model])

    # ---- The firmware's functions

    def is_signed(self, _, claim, signature):
        return bytes(signature[:64]) == hashlib.sha512(KEY + bytes(claim.contents)).digest()

    def watch(self, _, on):
        self.watched = on

    def raise_counter(self, _, least):
        if not self.flash.has_power or self.flash.is_cut():
            return False
        if least > self.most_kept:
            self.flash.misuse(f"the counter is raised to {least}, and no version above {self.most_kept} is kept")
        self.counter = max(self.counter, least)
        return True

    def open_store(self):
        """After a reset, which writes nothing."""
        self.flash.power_on()
        sector = self.functions.sector_size
        self.store = Store(
            flash=ctypes.pointer(self.functions), records=0, areas=(2 * sector, 2 * sector + self.area_size), area_size=self.area_size,
            trial_starts=TRIAL_STARTS, is_signed=IS_SIGNED(self.is_signed), watch=WATCH(self.watch),
            read_counter=READ_COUNTER(lambda _: self.counter), raise_counter=RAISE_COUNTER(self.raise_counter))
        self.chosen, self.watched = None, False
        self.expect("open's answer", self.call("open"), "done")

    def power_on(self, possible):
        """After a reset the record is one of the possible ones."""
        self.open_store()
        found = self.state()
        if found not in possible:
            raise Wrong(f"after a reset the record is {found}, not one of {possible}")
        self.model = found

    # ---- What is looked at

    def state(self):
        record = self.store.record
        versions = [NONE if not it.state else (STATES[it.state] if it.state < len(STATES) else it.state, it.starts,
                                               it.claim.sequence, it.claim.least_sequence) for it in record.versions]
        return State(tuple(versions), max(it.claim.sequence for it in record.versions), record.least_sequence)

    def expect(self, what, found, wanted):
        if found != wanted:
            raise Wrong(f"{what} is {found}, not {wanted}")

    def call(self, name, *words):
        """The call's status, or None where the power was cut in it."""
        status = getattr(self.library, f"sfi_device_store_{name}")(ctypes.byref(self.store), *words)
        if self.flash.misused:
            raise Misused(self.flash.misused)
        return STATUSES[status] if self.flash.has_power else None

    def passes(self, name, states, wanted, *words):
        """A call that takes the record through these states, from the model's. False where it was cut."""
        status = self.call(name, *words)
        if status is None:
            self.power_on([self.model, *states])
            return False
        self.expect(f"{name}'s answer", status, wanted)
        self.model = [self.model, *states][-1]
        self.expect(f"the record after {name}", self.state(), self.model)
        return True

    # ---- Calls

    def choose(self):
        states, state = [], self.model
        while True:
            at = state.best()
            if at is None:
                break
            name, starts, sequence, _ = state.versions[at]
            is_right = sequence >= max(state.least, self.counter) and at not in self.rotten
            if is_right and name == "good":
                break
            is_started = is_right and starts < TRIAL_STARTS
            state = state.with_state(at, *(("on trial", starts + 1) if is_started else ("bad", starts)))
            states.append(state)
            if is_started:
                break
        area = ctypes.c_uint32(99)
        if self.passes("choose", states, "no version" if at is None else "done", ctypes.byref(area)):
            self.chosen = at
            self.expect("the area", area.value, 99 if at is None else at)
            self.expect("the watchdog", self.watched, self.is_on_trial())
            if at is not None:
                image = self.images[self.model.versions[at][2]]
                self.expect("the image", self.flash.bytes(self.store.areas[at], len(image)), image)

    def is_on_trial(self):
        return self.chosen is not None and self.model.versions[self.chosen][0] == "on trial"

    def keep(self):
        if self.chosen is None:
            return self.passes("keep", [], "too early")
        name, starts, sequence, least = self.model.versions[self.chosen]
        self.most_kept = max(self.most_kept, sequence)
        state = dataclasses.replace(self.model.with_state(self.chosen, "good", starts), least=max(self.model.least, least))
        if self.passes("keep", [state] if name != "good" else [], "done"):
            self.expect("the watchdog", self.watched, False)
            self.expect("the counter", self.counter, self.model.least)
        return None

    def reject(self):
        if self.chosen is None:
            return self.passes("reject", [], "too early")
        if self.passes("reject", [self.model.with_state(self.chosen, "bad", self.model.versions[self.chosen][1])], "done"):
            self.chosen = None
            self.expect("the watchdog", self.watched, False)
        return None

    def reset(self):
        self.power_on([self.model])

    def rot(self):
        """A byte of a version's image changes by itself."""
        area = self.chance.randrange(AREAS)
        name, _, sequence, _ = self.model.versions[area]
        if name != "none":
            at = self.store.areas[area] + self.chance.randrange(len(self.images[sequence]))
            self.flash.memory[at] = self.images[sequence][at - self.store.areas[area]] ^ 1 << self.chance.randrange(8)
            self.rotten.add(area)

    def new_update(self):
        """One that is right, or wrong in some way; and what is answered to begin and to finish."""
        sequence = self.model.latest + self.chance.randrange(1, 3)
        least = self.chance.choice([0, 0, sequence, self.model.latest])
        image = self.chance.randbytes(self.chance.randrange(1, self.area_size + 1))
        update = right(sequence, least, image)
        wrong = {
            "too old": {"sequence": self.chance.randrange(self.model.latest + 1), "least": 0},
            "not signed": {"is_signed": False},
            "wrong length": {"length": self.chance.choice([0, self.area_size + 1, 2 ** 32 - 1])},
            "too old, by itself": {"least": sequence + 1},
        }
        wrong_at_end = {"differs": {"digest": hashlib.sha256(image + b" ").digest()}, "wrong length": {"length": len(image) + 1}}
        kind = self.chance.randrange(12)
        if kind < 4:
            why, changes = list(wrong.items())[kind]
            return dataclasses.replace(update, **changes), why.split(",")[0], None
        if kind < 6:
            why, changes = list(wrong_at_end.items())[kind - 4]
            if len(image) < self.area_size:
                return dataclasses.replace(update, **changes), "done", why
        return update, "done", "done"

    def update(self):
        self.put(*self.new_update())

    def put(self, update, at_begin="done", at_end="done"):
        words = ctypes.byref(update.claim()), update.signature()
        before = self.flash.bytes(0, self.flash.size)
        is_behind = self.counter < self.model.least
        if not self.store.is_chosen or self.is_on_trial() or self.chosen is not None and is_behind:
            at_begin = "too early"
        is_told_by_first = self.store.record.versions[0].claim.least_sequence == self.model.least
        target = 1 if self.chosen == 0 or self.chosen is None and is_behind and is_told_by_first else 0
        states = [self.model.with_version(target, NONE)] if at_begin == "done" and self.model.versions[target] != NONE else []
        if not self.passes("begin", states, at_begin, *words):
            return
        if at_begin != "done":
            self.expect("the flash after a refusal", self.flash.bytes(0, self.flash.size) == before, True)
            return
        self.rotten.discard(target)
        if self.write(update.image):
            self.images[update.sequence] = update.image
            taken = dataclasses.replace(self.model.with_version(target, ("new", 0, update.sequence, update.least)),
                                        latest=update.sequence)
            self.passes("finish", [taken] if at_end == "done" else [], at_end)

    def write(self, image):
        """In pieces of any size. False where it was cut."""
        at = 0
        while at < len(image):
            length = self.chance.randrange(self.chance.choice([2, 40, 1000]))
            piece = image[at:at + length]
            if not self.passes("write", [], "done", (ctypes.c_ubyte * len(piece))(*piece), len(piece)):
                return False
            at += length
        return True

    def step(self, cuts):
        """Another call; and, if cuts is set, maybe one of its writes, or of the next calls', will be cut."""
        if cuts and self.flash.cut_at is None and self.chance.randrange(2):
            record_writes = max(1, 256 // self.functions.page_size)
            most = self.chance.choice([1, 6, 30]) * record_writes
            self.flash.plan_cut(self.chance.randrange(most), self.chance.choice(PIECES))
        calls = {"choose": 5, "keep": 3, "reject": 1, "reset": 1, "rot": 0.3, "update": 5}
        getattr(self, self.chance.choices(list(calls), list(calls.values()))[0])()
