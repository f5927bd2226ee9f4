"""A walk: commands by chance for the host with slots on QEMU, each answer beside the model's, each entry beside the checker of
entries. Images in three formats come to places that overlap, and places that were dropped come to other slots."""
import random

from walked_images import FIRST, KINDS, UNITS, Image
from model import Model

PIECE = 256
SLOTS = 4
DATA = [0x80401000 + 0x3000 * slot for slot in range(SLOTS)]  # slots.c: data_at
MOVED_TO = [0x80170000 + 0x10000 * slot for slot in range(SLOTS)]  # slots.c: code_at
BASES = [0x80110000, 0x80110100, 0x80110200, 0x80120000, *MOVED_TO[:2]]
KNOWN = 6  # latest images, at whose places functions are called
WEIGHTS = {"update": 12, "add": 2, "cut_update": 1, "call": 30, "start": 2, "kill": 2, "remove": 4, "show": 6, "settle": 12,
           "look": 4, "cut_power": 0.2}
POLLS = 100  # of a plug-in that stops, reports, or uses up its trial; a called unit may also run for ever


class Wrong(Exception):
    """What the host did, and what came before."""


class Walk:
    def __init__(self, device, seed):
        self.device, self.chance, self.model = device, random.Random(seed), Model(SLOTS)
        self.images, self.history, self.counts = [], [], dict.fromkeys(WEIGHTS, 0)
        self.entered = self.crossed = 0  # calls that were let in; places that came to another slot than they had
        self.sums = self.ask("sums").split()
        self.ran = set()  # slots whose data may have changed since then

    def step(self):
        command = self.chance.choices(list(WEIGHTS), list(WEIGHTS.values()))[0]
        self.counts[command] += 1
        getattr(self, command)()

    # ---- Lines

    def ask(self, *words):
        answer = self.device.ask(*words, told=self.told)
        line = f"{' '.join(str(word) for word in words)[:40]} -> {answer}"
        if line not in self.history[-1:]:
            self.history.append(line)
        return answer

    def told(self, line):
        self.history.append(f"  {line}")
        self.right(self.model.told(line))

    def right(self, why):
        if why:
            raise Wrong("\n".join([why, *self.history[-60:]]))

    def slot(self):
        return self.chance.randrange(SLOTS)

    # ---- Commands

    def new_image(self):
        base = self.chance.choice(BASES)
        size = self.chance.choice([it for it in (256, 512, 1024) if base % it == 0])
        kind = self.chance.choices(KINDS, (8, 1, 4, 3, 1))[0]
        slot = self.slot()
        self.images.append(Image(len(self.images) + 1, self.chance.choice(list(UNITS)), kind, base, size, DATA[slot]))
        return self.images[-1], slot

    def fed(self, image, most):
        """The answer to the last of the image's pieces, of which at most so many are sent."""
        code, answer = image.bytes(), None
        for start in list(range(0, len(code), PIECE))[:most]:
            answer = self.ask("piece", code[start:start + PIECE].hex())
        return answer

    def awaits(self, slot, *words):
        """Whether an update is awaited, for a slot or the first that has no version then."""
        answer = self.ask(*words)
        self.right(self.model.after_await(self.model.free() if slot is None else slot, answer))
        return answer != "no"

    def update(self):
        image, slot = self.new_image()
        if self.chance.randrange(10) == 0:
            slot = self.slot()  # it may be one that has other data
        if self.awaits(slot, "update", slot, f"{len(image.bytes()):x}"):
            self.takes(slot, image, image.data == DATA[slot], self.fed(image, None))

    def add(self):
        image, _ = self.new_image()
        if self.awaits(None, "add", f"{len(image.bytes()):x}"):
            slot = self.model.free()
            moved = self.images[-1] = image._replace(base=MOVED_TO[slot], data=DATA[slot])
            self.takes(slot, moved, True, self.fed(image, None))

    def takes(self, slot, image, is_place, answer):
        self.crossed += any(owner != slot and there.base == image.base for owner, there in self.model.entries.placed)
        self.right(self.model.after_update(slot, image, is_place, answer))
        self.ran.add(slot)

    def cut_update(self):
        """Some pieces alone come; now and then the power is cut then."""
        image, slot = self.new_image()
        if self.awaits(slot, "update", slot, f"{len(image.bytes()):x}"):
            self.fed(image, 1)
            if self.chance.randrange(4) == 0:
                self.cut_power()

    def call(self):
        """Mostly at the place of a plug-in that was sent lately, whoever has it now."""
        image = self.chance.choice(self.images[-KNOWN:] or [self.new_image()[0]])
        slot = self.chance.choice([DATA.index(image.data), self.slot()])
        pc = image.base + 4 * self.chance.randrange(4 * FIRST + 24) + (2 if self.chance.randrange(20) == 0 else 0)
        first = self.chance.getrandbits(32)
        if self.chance.randrange(2):
            self.settle(slot)
        answer = self.ask("call", slot, f"{pc:x}", f"{first:x}", "0")
        self.right(self.model.after_call(slot, pc, answer))
        if answer != "no":
            self.entered += 1
            self.ran.add(slot)
            self.answers(slot, pc, first)

    def answers(self, slot, pc, first):
        """What the called unit does, as far as its image says it."""
        wanted = self.model.slots[slot].current.image.answer(pc, first)
        for _ in range(POLLS if wanted is not None else 0):
            line = self.show_one(slot)
            if " ready " not in line:
                return self.right(None if f" exit={wanted} " in line else f"wanted exit={wanted}")

    def show_one(self, slot):
        line = self.ask("show", slot)
        self.right(self.model.after_show(slot, line))
        return line

    def show(self):
        self.show_one(self.slot())

    def settle(self, slot=None):
        """Until the plug-in of a slot isn't on trial, and has stopped if it does."""
        slot = self.slot() if slot is None else slot
        for _ in range(POLLS):
            line, current = self.show_one(slot), self.model.slots[slot].current
            if " on trial" not in line and (" ready " not in line or current.image.kind == "lives"):
                return

    def start(self):
        slot = self.slot()
        self.right(self.model.after_start(slot, self.ask("start", slot)))
        self.ran.add(slot)

    def kill(self):
        slot = self.slot()
        self.right(self.model.after_kill(slot, self.ask("kill", slot)))

    def remove(self):
        slot = self.slot()
        self.right(self.model.after_remove(slot, self.ask("remove", slot)))

    def cut_power(self):
        self.device.cut_power()
        self.history.append("the power is cut")
        self.model.reset()
        host = self.sums[0]
        self.sums = self.ask("sums").split()
        self.right(None if self.sums[0] == host else "the host has changed")
        self.ran = set()

    def look(self):
        """What the host says of its own code, of each plug-in's, and of data that no entry may have changed."""
        before, self.sums = self.sums, self.ask("sums").split()
        changed = [slot for slot in range(SLOTS) if before[2 + 2 * slot] != self.sums[2 + 2 * slot]]
        self.right(None if before[0] == self.sums[0] else "the host has changed")
        self.right(None if set(changed) <= self.ran else f"the data of slots {set(changed) - self.ran} have changed")
        self.right(self.model.after_sums(self.sums[1::2]))
        self.ran = {number for number, slot in enumerate(self.model.slots) if slot.may_run}
