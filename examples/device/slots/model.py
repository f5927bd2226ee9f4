"""A model of the host with slots, which says what it may answer; and apart from that a checker of entries, which says
whether an entered address is the start of a unit of the image that stands there now."""
import re

REPORTED = re.compile(r"^slot=(\d) (no report|older version): version=(\d+)")


class Entries:
    """Told which image was placed where, and what was dropped, in the order in which that happened. It knows nothing of
    versions, trials, and why the host lets an image be placed or entered."""

    def __init__(self):
        self.placed = []  # (slot, image), the latest last
        self.standing = {}  # by slot: the image whose code was placed for it last, until that is dropped

    def place(self, slot, image):
        """Why the host must not write the image's code now, or None."""
        self.standing[slot] = image
        self.placed = [it for it in self.placed if it[1] is not image] + [(slot, image)]
        for other, there in self.standing.items():
            if other != slot and there.base < image.base + image.size and image.base < there.base + there.size:
                return f"slot {slot}'s code at {image.base:x} is over slot {other}'s at {there.base:x}"
        return None

    def drop(self, slot):
        self.standing.pop(slot, None)

    def fault(self, slot, pc):
        """Why pc is no entry of the slot's plug-in, or None."""
        covers = [(owner, image) for owner, image in self.placed if image.base <= pc < image.base + image.size]
        if not covers:
            return "no image stands there"
        owner, image = covers[-1]
        if (pc - image.base) % image.unit:
            return f"slot {owner}'s image stands there in format {image.image_format}, of which no unit begins there"
        if owner != slot:
            return f"slot {owner}'s image stands there"
        if self.standing.get(slot) is not image:
            return "the image that stands there was dropped"
        return None


class Version:
    def __init__(self, number, image):
        self.number, self.image = number, image


class Slot:
    """What the model knows of a slot. A turn may be over before a plug-in gets on, so it may still be on trial, or ready,
    until a line says that it isn't."""

    def __init__(self):
        self.current = self.older = None
        self.updates = 0
        self.may_try = self.may_run = False

    def remove(self):
        self.current = self.older = None
        self.may_try = self.may_run = False


class Model:
    """Four slots. `after` a command is told its answer, and says what is wrong with that, or None."""

    def __init__(self, slots):
        self.slots = [Slot() for _ in range(slots)]
        self.entries = Entries()

    def reset(self):
        """Nothing of a slot is left after a reset: what memory holds is nobody's."""
        self.__init__(len(self.slots))

    # ---- What the host tells by itself

    def told(self, line):
        """Of a line that answers no command: what is wrong with it, or None."""
        number, what, version = REPORTED.match(line).groups()
        slot, version = self.slots[int(number)], int(version)
        if slot.current is None or version != slot.current.number:
            return f"version {version} isn't slot {number}'s"
        if what == "older version":
            return None
        if not slot.may_try:
            return "it isn't on trial"
        self.entries.drop(int(number))
        slot.current, slot.older, slot.may_try = slot.older, None, False
        slot.may_run = slot.current is not None
        return self.entries.place(int(number), slot.current.image) if slot.current else None

    # ---- Commands

    def is_apart(self, number, image):
        return not any(version and version.image.base < image.base + image.size and
                       image.base < version.image.base + version.image.size
                       for other, slot in enumerate(self.slots) if other != number
                       for version in (slot.current, slot.older))

    def free(self):
        """The first slot without a version, or None."""
        return next((number for number, slot in enumerate(self.slots) if slot.current is None), None)

    def after_await(self, number, answer):
        """An update is announced, for which the older version makes room."""
        slot = self.slots[number] if number is not None else None
        if answer == "no":
            return None if slot is None or slot.may_try else "it must take an update"
        if slot is None:
            return "there is no slot for it"
        slot.older, slot.may_try = None, False
        return None

    def after_update(self, number, image, is_place, answer):
        """The image's last piece has come; `is_place`: it may be where it is now."""
        slot, stays = self.slots[number], f"slot={number} stays: "
        if image.kind == "refused":
            return None if answer.startswith(f"{stays}refused findings=1 first=V1 ") else "it must be refused"
        if not is_place:
            return None if answer == f"{stays}not the slot's place" else "it isn't the slot's place"
        if not self.is_apart(number, image):
            return None if answer == f"{stays}not apart from another slot" else "it isn't apart"
        slot.updates += 1
        if answer != f"slot={number} started: version={slot.updates} on trial ready put=0":
            return f"version {slot.updates} must be started"
        slot.older, slot.current = slot.current, Version(slot.updates, image)
        slot.may_try = slot.may_run = True
        return self.entries.place(number, image)

    def after_call(self, number, pc, answer):
        slot = self.slots[number]
        if answer == "no":
            is_entry = self.entries.fault(number, pc) is None
            return "it must be called" if is_entry and not slot.may_try and not slot.may_run else None
        fault = self.entries.fault(number, pc)
        if fault or not slot.current:
            return f"ESCAPE: slot {number} is entered at {pc:x}: {fault or 'it has no version'}"
        slot.may_try, slot.may_run = False, True
        return self.of_current(number, "called", answer)

    def after_start(self, number, answer):
        slot = self.slots[number]
        if answer == "no":
            return "it must be started" if slot.current and not slot.may_try else None
        if not slot.current:
            return "it has no version"
        slot.may_try, slot.may_run = False, True
        return self.entries.place(number, slot.current.image) or self.of_current(number, "started", answer)

    def after_remove(self, number, answer):
        slot = self.slots[number]
        if answer == "no":
            return "it must be removed" if slot.current and not slot.may_try else None
        if not slot.current:
            return "it has no version"
        slot.remove()
        self.entries.drop(number)
        return None if answer == f"slot={number} removed: version=0 empty put=0" else "it has a version"

    def after_kill(self, number, answer):
        slot = self.slots[number]
        if answer == "no":
            return None  # it may have stopped
        is_run, slot.may_run = slot.may_run, False
        return self.of_current(number, "killed", answer) if is_run else "it doesn't run"

    def after_show(self, number, answer):
        slot = self.slots[number]
        if slot.current and " on trial" not in answer:
            slot.may_try = False
        if slot.current and " ready " not in answer:
            slot.may_run = False
        return self.of_current(number, "is", answer)

    def of_current(self, number, what, answer):
        """Whether the line names the current version, or none."""
        current = self.slots[number].current
        wanted = f"slot={number} {what}: version={current.number if current else 0}"
        if not answer.startswith(wanted + " ") or (" empty " in answer) != (current is None):
            return f"wanted {wanted}"
        return None

    def after_sums(self, states):
        """Of the words that say what stands in each slot's place."""
        wanted = ["code" if slot.current else "none" for slot in self.slots]
        return None if states == wanted else f"wanted {wanted}"
