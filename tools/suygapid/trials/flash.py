"""A flash that loses its power: each write may be cut before it, in the middle, or after it, and a page or sector that was cut
keeps any bits that it had and any that it was to have. Bits become 0 until their sector is erased."""
import ctypes

PIECES = ("nothing", "half", "some", "all")  # of a write, that a cut lets through


class Misused(Exception):
    """A page is programmed twice, or an address isn't a page's or sector's."""


class Flash:
    def __init__(self, size, sector, page, chance):
        self.size, self.sector, self.page, self.chance = size, sector, page, chance
        self.memory = (ctypes.c_ubyte * size)(*(chance.randrange(256) for _ in range(size)))
        self.start = ctypes.addressof(self.memory)
        self.programmed = set(range(0, size, page))  # pages: nothing is known of them before they are erased
        self.writes, self.cuts, self.misused = 0, 0, None
        self.has_power, self.cut_at, self.piece = True, None, None
        self.is_worn = False  # then each write fails

    def bytes(self, address, length):
        return ctypes.string_at(self.start + address, length)

    def plan_cut(self, writes, piece):
        """The power is cut at the write after so many."""
        self.cut_at, self.piece = self.writes + writes, piece

    def power_on(self):
        self.has_power = True

    def is_cut(self):
        """Counts a write of any kind, and cuts it if it is due."""
        self.writes += 1
        if self.cut_at is None or self.writes <= self.cut_at:
            return False
        self.has_power, self.cut_at, self.cuts = False, None, self.cuts + 1
        return True

    def write(self, address, wanted):
        """Programs or erases: after a cut only a piece of it is done."""
        if not self.has_power or self.is_worn:
            return False
        length, old = len(wanted), self.bytes(address, len(wanted))
        if self.is_cut():
            done = {"nothing": 0, "half": length // 2, "some": 0, "all": length}[self.piece]
            masks = [self.chance.randrange(256) if self.piece == "some" else 255 * (at < done) for at in range(length)]
            wanted = bytes(new & mask | byte & ~mask for new, byte, mask in zip(wanted, old, masks))
        ctypes.memmove(self.start + address, wanted, length)
        return self.has_power

    def misuse(self, why):
        self.misused = self.misused or why

    # ---- What the store calls

    def read(self, _, address, to, length):
        if address + length > self.size:
            self.misuse(f"read at {address:x}")
        elif self.has_power:
            ctypes.memmove(to, self.start + address, length)
        return self.has_power

    def erase_sector(self, _, address):
        if address % self.sector or address >= self.size:
            self.misuse(f"no sector begins at {address:x}")
        done = self.write(address, b"\xff" * self.sector)
        if done:
            self.programmed.difference_update(range(address, address + self.sector, self.page))
        return done

    def program_page(self, _, address, data):
        if address % self.page or address >= self.size:
            self.misuse(f"no page begins at {address:x}")
        if self.has_power and address in self.programmed and self.bytes(address, self.page) != b"\xff" * self.page:
            self.misuse(f"the page at {address:x} is programmed twice")
        old, new = self.bytes(address, self.page), ctypes.string_at(data, self.page)
        if self.has_power:
            self.programmed.add(address)
        both = int.from_bytes(old, "little") & int.from_bytes(new, "little")
        return self.write(address, both.to_bytes(self.page, "little"))
