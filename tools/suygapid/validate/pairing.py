"""Pairs the accesses of a stretch of the rewritten code with those of the compiler's."""
from suygapid.validate.comparing import distance, renamed
from suygapid.validate.stretches import STACK, STORES
from suygapid.validate.values import of, signed

STACK_FRAME = ""  # stands for a section


class Pairs:
    """The accesses of the compiler's stretch, each with the one of the rewritten code that it is."""

    def __init__(self, accesses, objects):
        self.accesses, self.objects = accesses, objects
        self.waiting = list(range(len(accesses)))
        self.order, self.others = [], []  # numbers, and the rewritten code's accesses, in its order
        self.unknown = None  # the first access of the rewritten code that is none of the compiler's

    def meet(self, number, access):
        """Pairs an access of the rewritten code, and answers what it loads."""
        chosen = self.chosen(access)
        if chosen is None:
            self.unknown = self.unknown or access
            return of("lost", 100 + number)
        self.waiting.remove(chosen)
        self.order.append(chosen)
        self.others.append(access)
        return of("load", chosen)

    def chosen(self, access):
        """The number of the access that one of the rewritten code is, or None: of those that may be, the first by what it
        stores, by its address and by its register."""
        address, stored = renamed(access.address), access.stored and renamed(access.stored)
        found = {}
        for number in self.waiting:
            other = self.accesses[number]
            is_known = other.address == address
            if other.word == access.word and (is_known or distance(address, other.address) is None):
                found[number] = stored != other.stored, not is_known, other.register != access.register
        return min(found, key=found.get, default=None)

    def changed_places(self):
        """The later of two of the compiler's accesses whose order matters and is another in the rewritten code, or None."""
        if self.order == sorted(self.order):
            return None
        for index, later in enumerate(self.order):
            for place, earlier in enumerate(self.order[index + 1:], index + 1):
                if earlier < later and self.may_meet(place, index):
                    return self.accesses[later]
        return None

    def may_meet(self, index, other):
        """Whether the order of two accesses matters: they may have a byte in common, and one stores."""
        first, second = self.accesses[self.order[index]], self.accesses[self.order[other]]
        if "fence" in (first.word, second.word):
            return True
        if first.word not in STORES and second.word not in STORES:
            return False
        count, places = distance(second.address, first.address), [self.place(it) for it in (index, other)]
        if None not in places:
            if places[0][0] != places[1][0]:
                return False  # in two sections, or in one and in the stack's frame
            count = places[1][1] - places[0][1]
        return count is None or -second.width() < count < first.width()

    def place(self, index):
        """The section and the place there of an object that an access leads to by its name, or those of the stack's frame; None
        for anywhere."""
        address = self.accesses[self.order[index]].address
        if list(address.terms) == [("left", STACK)]:
            return STACK_FRAME, signed(address.number)
        address = self.others[index].address
        atoms = list(address.terms)
        symbol = self.objects.named.get(atoms[0][1]) if len(atoms) == 1 and atoms[0][0] == "address" else None
        return (symbol.section, symbol.value + signed(address.number)) if symbol and symbol.section else None
