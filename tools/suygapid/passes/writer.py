"""What both ways of writing GNU assembly share: the sections, and beside each piece the soft items and the line of C."""
from typing import Optional

from suygapid.passes.landings import with_lengths
from suygapid.passes.places import Places

NORVC, RVC = "\t.option norvc", "\t.option rvc"
OPTIONS = ["\t.option norelax", NORVC, "\t.option nopic"]  # after the file's own lines: `.attribute arch` turns rvc on


class Writer:
    """Writes the code of a file. What becomes of a piece is a subclass's to say."""
    alignment: Optional[int] = None  # of a section, as a power of two

    def __init__(self, unit, small, image_format, is_movable=False):
        self.unit, self.small, self.format, self.is_movable = unit, small, image_format, is_movable
        self.out = []
        self.location, self.told = None, set()

    def piece(self, op, following):
        """Writes an instruction, before the piece that follows it."""
        raise NotImplementedError

    def end_word(self):
        """Comes before a label and at a section's end."""

    def begin_section(self, number):
        """Comes before the first piece."""

    def head(self, shown, told):
        """The lines before the code, with labels and debug information as the code's passes leave them."""
        return [*with_lengths(Places(self.unit.verbatim, shown).right()), *self.unit.symbols, *told, *OPTIONS]

    def text(self, key, pieces, order, labels):
        """A section with its line, and with some labels before pieces of these numbers."""
        self.out = [self.unit.sections[key].line]
        if pieces:
            self.out.append(f"\t.p2align {self.alignment}")
            self.begin_section(list(self.unit.sections).index(key))
        self.section(pieces, order, labels)
        return "\n".join(self.out)

    def section(self, pieces, order, labels):
        """Writes the pieces."""
        waiting, self.location = list(reversed(order.soft)), None
        numbers, leasts = order.numbered(pieces)
        for number, (piece, following, least) in enumerate(zip(pieces, [*pieces[1:], None], leasts)):
            if piece.is_mark:
                self.end_word()
            while waiting and waiting[-1][0] <= least:
                self.soft(waiting.pop()[1])
            if number in labels:
                self.out.append(f"{labels[number]}:")
            if piece.is_mark:
                self.label(piece.name)
                self.begin_frame(waiting, numbers[number])
            else:
                if self.unit.locations:
                    self.locate(piece)
                begun = len(self.out)
                self.piece(piece, following)
                for text in order.beside.get(numbers[number], ()):
                    self.beside(text, begun)
        self.end_word()
        for _, text in reversed(waiting):
            self.soft(text)

    def begin_frame(self, waiting, number):
        """Writes what tells of a frame directly after a label of this number: also where a pass puts an instruction there, the frame
        begins at the label, from which tables of exceptions count."""
        while number is not None and waiting and waiting[-1][0] == number + 1 and waiting[-1][1].startswith("\t.cfi_"):
            self.soft(waiting.pop()[1])

    def soft(self, text):
        self.out.append(text)

    def beside(self, text, begun):
        """Puts a soft item beside an instruction, whose lines begin there, and before what masks the stack pointer then."""
        place = next(number for number in range(begun, len(self.out)) if not self.out[number].startswith("\t."))
        self.out.insert(place + 1, text)

    def label(self, name):
        self.out.append(f"{name}:")

    def locate(self, op):
        """The line of C, where it is another one than before. Of lines that were told before, the last is enough."""
        lines = self.unit.locations.get(op.place)
        if lines and lines is not self.location:
            self.out += lines if id(lines) not in self.told else lines[-1:]
            self.told.add(id(lines))
            self.location = lines

    def is_weak(self, name):
        """Whether nothing may define a name."""
        return name in self.unit.weak and name not in self.unit.defined


