"""Images made by hand for walks: each unit of their code tells by its exit which image's it is."""
import collections
import struct

from suygapid.image.layout import NAMED, Part, spelled
from suygapid.isa.encoding import i_type, jal, r_type, s_type, u_type

UNITS = {"1": 16, "2": 16, "words": 4}  # bytes: a sandbox is entered at multiples of it
BUNDLE, DATA_SIZE = 16, 4096
KINDS = ("reports", "lives", "silent", "breaks", "refused")
NOP, EBREAK, ECALL, HOSTILE = 0x00000013, 0x00100073, 0x00000073, 0x30501073  # the last is csrw mtvec, x0
EXIT, REPORT, YIELD, START, NEXT, FIRST = range(6)  # bundles: three gates, and the code's own
SERVICES = {EXIT: 0, REPORT: 4, YIELD: 3}
RA, A0, S1, X24, X25, X26, X27, X29, X30, X31 = 1, 10, 9, 24, 25, 26, 27, 29, 30, 31


def lui(to, number):
    return u_type(number, to, 0x37)


def addi(to, one, number):
    return i_type(number, one, 0, to, 0x13)


def logic(name, to, one, other):
    return r_type(0, other, one, {"and": 7, "or": 6}[name], to)


class Image(collections.namedtuple("Image", "number image_format kind base size data")):
    """An image of one sandbox: its number, format and kind, where its code is and how many bytes it has, and where its data
    are. It exits with 256 times its number and that of the bundle that it was entered at."""

    @property
    def unit(self):
        return UNITS[self.image_format]

    def code_of(self, bundle):
        return 256 * self.number + bundle

    def answer(self, pc, first):
        """The exit's number of a call at an entry with `first` in a0, or None where it isn't said here."""
        bundle, offset = divmod(pc - self.base, BUNDLE)
        if bundle < FIRST or self.kind == "refused":
            return None
        if bundle % 2 or offset > 4:  # it stores a0, or has it as it was
            return first
        low = self.code_of(bundle) & 0xfff
        return self.code_of(bundle) if offset == 0 else (first + low - (low & 0x800) * 2) % 2**32

    def returns(self, bundle, to):
        """Bundles that call another, after which the next one comes."""
        return [NOP, NOP, NOP, jal(BUNDLE * (to - bundle) - 12, RA)]

    def exits(self, bundle):
        number = self.code_of(bundle)
        return [lui(A0, number + 0x800 >> 12), addi(A0, A0, number), NOP, jal(-BUNDLE * bundle - 12, RA)]

    def stores(self, bundle):
        """In bundles it is the store alone that a wrong entry reaches: x31 is no address then."""
        base = X29 if self.image_format == "words" else X31
        return [logic("and", X31, S1, X27), logic("or", base, X31, X26), s_type(0, A0, base, 2), jal(-BUNDLE * bundle - 12, RA)]

    def bundle(self, number):
        to = X30 if self.image_format == "words" else X31
        stub = [ECALL, logic("and", to, RA, X25), logic("or", to, to, X24), to << 15 | 0x67]
        loops = [jal(-BUNDLE, 0), NOP, NOP, EBREAK]
        if number in SERVICES:
            return stub
        if number == START and self.kind == "breaks":
            return [EBREAK] * 4
        if number == START:
            return self.returns(number, YIELD if self.kind == "silent" else REPORT)
        if number == NEXT and self.kind == "silent":
            return loops
        if number == NEXT and self.kind == "lives":
            return self.returns(number, YIELD)
        if number == FIRST and self.kind == "lives":
            return loops
        if number == FIRST and self.kind == "refused":
            return [HOSTILE, NOP, NOP, EBREAK]
        return self.stores(number) if number % 2 else self.exits(number)

    def bytes(self):
        words = [word for number in range(self.size // BUNDLE) for word in self.bundle(number)]
        gates = {self.base + BUNDLE * bundle: service for bundle, service in SERVICES.items()}
        code = struct.pack(f"<{len(words)}I", *words)
        return spelled(NAMED[self.image_format], [Part(self.base, code, self.data, DATA_SIZE, self.base + BUNDLE * START, gates)])
