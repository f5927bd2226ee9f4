"""What somebody may write who has the flash of a store, but neither the vendor's key nor the counter: records of any numbers with a
right check, claims of any version, the vendor's own claims and images of other devices, an older flash, or noise."""
import ctypes
import hashlib

from suygapid.trials import store_walk
from suygapid.trials.store import AREAS, STATES, Claim, Record, Version

LAYOUT = 0x31494653
NUMBERS = (0, 1, 2, 5, 2 ** 31 - 1, 2 ** 31, 2 ** 32 - 2, 2 ** 32 - 1)
CHECK_SIZE = Record.check.size


def seal(record):
    """Gives it the check that anybody can compute."""
    record.layout = LAYOUT
    record.check[:] = hashlib.sha256(bytes(record)[:-CHECK_SIZE]).digest()[:CHECK_SIZE]


class Attack:
    """On the flash of a walk, whose store is then opened anew."""

    def __init__(self, victim):
        self.victim, self.chance = victim, victim.chance
        self.older_flashes = []
        self.vendors = []  # updates that the vendor signed, for any device

    def put_record(self, record, place):
        seal(record)
        ctypes.memmove(self.victim.flash.start + place, bytes(record), ctypes.sizeof(record))

    def put_image(self, area, image):
        ctypes.memmove(self.victim.flash.start + self.victim.store.areas[area], image, len(image))

    def places(self):
        return range(0, 2 * self.victim.functions.sector_size, ctypes.sizeof(Record))

    def version(self, area):
        """Of the vendor, maybe with its image, or of nobody."""
        state, starts = self.chance.randrange(len(STATES) + 1), self.chance.choice(NUMBERS)
        if self.vendors and self.chance.randrange(2):
            update = self.chance.choice(self.vendors)
            if self.chance.randrange(2):
                self.put_image(area, update.image)
            return Version(state, starts, update.claim(), update.signature())
        image = self.chance.randbytes(20)
        self.put_image(area, image)
        claim = Claim(self.chance.choice(NUMBERS), self.chance.choice(NUMBERS), len(image),
                      (ctypes.c_ubyte * 32)(*hashlib.sha256(image).digest()))
        return Version(state, starts, claim, (ctypes.c_ubyte * 64)(*self.chance.randbytes(64)))

    def forge(self):
        """Some records, beside what is there."""
        for place in self.chance.sample(self.places(), self.chance.randrange(1, len(self.places()) + 1)):
            record = Record.from_buffer_copy(self.victim.store.record)
            record.generation = self.chance.choice((*NUMBERS, record.generation, record.generation + 1))
            record.least_sequence = self.chance.choice((*NUMBERS, record.least_sequence))
            for area in range(AREAS):
                if self.chance.randrange(2):
                    record.versions[area] = self.version(area)
            self.put_record(record, place)

    def set_back(self):
        """All of the flash is as it was at some time."""
        if self.older_flashes:
            ctypes.memmove(self.victim.flash.start, self.chance.choice(self.older_flashes), self.victim.flash.size)

    def scatter(self):
        for _ in range(self.chance.choice((1, 100, 5000))):
            self.victim.flash.memory[self.chance.randrange(self.victim.flash.size)] = self.chance.randrange(256)

    def strike(self):
        self.older_flashes.append(self.victim.flash.bytes(0, self.victim.flash.size))
        del self.older_flashes[:-8]
        self.chance.choice((self.forge, self.forge, self.set_back, self.scatter))()
        self.victim.flash.programmed = set(range(0, self.victim.flash.size, self.victim.flash.page))


class Hostile(store_walk.Walk):
    """A store that has no model: only what has to hold for whatever the flash has."""

    def __init__(self, library, seed, shape):
        super().__init__(library, seed, shape)
        self.attack = Attack(self)

    def start(self):
        """From a reset to the version that runs: the sequence number of one that the vendor signed, or None."""
        self.open_store()
        before, area = self.counter, ctypes.c_uint32()
        answer = self.call("choose", ctypes.byref(area))
        self.expect("the counter", self.counter, before)
        if answer == "no version":
            return None
        self.expect("choose's answer", answer, "done")
        claim = self.store.record.versions[area.value].claim
        image = self.flash.bytes(self.store.areas[area.value], claim.length)
        self.expect("that it is the vendor's", (claim.sequence, image) in [(it.sequence, it.image) for it in self.attack.vendors], True)
        self.expect("that it isn't older than the counter", claim.sequence >= self.counter, True)
        return claim.sequence

    def finish_trial(self, sequence):
        """The firmware keeps or rejects what runs, or is reset before it does."""
        what = self.chance.choice(("keep", "keep", "reject", None))
        if what == "keep":
            self.most_kept = max(self.most_kept, sequence)
        if what is not None:
            self.expect(what, self.call(what), "done")

    def take(self, update):
        """An update that is right comes through, after the version that runs is kept, or rejected."""
        pieces = (ctypes.c_ubyte * update.length)(*update.image)
        for name, words in (("begin", (ctypes.byref(update.claim()), update.signature())), ("write", (pieces, update.length)),
                            ("finish", ())):
            self.expect(name, self.call(name, *words), "done")
        self.expect("the version that runs", self.start(), update.sequence)
        self.most_kept = max(self.most_kept, update.sequence)
        self.expect("keep", self.call("keep"), "done")
        self.expect("the counter", self.counter >= update.least, True)
        self.expect("the version that runs", self.start(), update.sequence)

    def round(self):
        """Somebody writes into the flash; and still the vendor's next update comes through."""
        for _ in range(self.chance.randrange(1, 4)):
            self.attack.strike()
            sequence = self.start()
            if sequence is not None:
                self.finish_trial(sequence)
        sequence = self.start()
        if sequence is not None:
            self.most_kept = max(self.most_kept, sequence)
            self.expect("keep", self.call("keep"), "done")
        latest = max((it.sequence for it in self.attack.vendors), default=0)
        here, elsewhere = (store_walk.right(latest + more, self.chance.choice((0, latest, latest + more)),
                                      self.chance.randbytes(self.chance.randrange(1, self.area_size + 1))) for more in (1, 2))
        self.attack.vendors.append(here)
        self.take(here)
        self.attack.vendors.append(elsewhere)  # signed, and never sent to this device by the vendor
