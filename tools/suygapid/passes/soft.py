"""Where soft items (unit.py) stand once the passes have moved pieces: an item is written as soon as all the pieces before it
in the file have been."""
from functools import cached_property

from suygapid.passes.program import Mark


def without_soft_labels(section, hard, taken):
    """The pieces of a section, of which labels that nothing but debug information speaks of have become soft items, and
    its soft items with the numbers of the pieces that they stand before."""
    pieces, soft, waiting = [], [], list(reversed(section.soft))
    for number, piece in enumerate(section.pieces):
        while waiting and waiting[-1][0] <= number:
            soft.append((len(pieces), waiting.pop()[1]))
        if not piece.is_mark:
            pieces.append(piece)
        elif piece.name in hard:
            pieces.append(Mark(piece.name, piece.inside, piece.name in taken))
        else:
            soft.append((len(pieces), f"{piece.name}:"))
    return pieces, soft + [(len(pieces), text) for _, text in reversed(waiting)]


def is_of_stack(text, piece):
    """Whether an item says where the frame is after an instruction that moves the stack pointer."""
    return text.startswith("\t.cfi_def_cfa") and piece is not None and "sp" in piece.writes


def first_of_run(pieces, number):
    """The number of the first piece that changes places with the one before this number."""
    while number and not pieces[number - 1].is_barrier:
        number -= 1
    return number


class Order:
    """The numbers of a section's pieces in the file, and its soft items; those of the stack pointer go with the instructions
    that move it, by their numbers."""

    def __init__(self, pieces, soft):
        self.soft, self.beside, last = [], {}, 0
        for number, text in soft:
            if is_of_stack(text, pieces[number - 1] if number else None):
                self.beside.setdefault(number - 1, []).append(text)
            elif text.startswith("\t.cfi_remember_state"):  # before the stack pointer moves, which may now come earlier
                self.soft.append((max(last, first_of_run(pieces, number)), text))
            else:
                self.soft.append((number, text))
            last = number if text.startswith("\t.cfi_") else last
        self.soft.sort(key=lambda item: item[0])
        self.kept = pieces  # so that no other piece gets the identity of one of these

    @cached_property
    def numbers(self):
        return {id(piece): number for number, piece in enumerate(self.kept)}

    @cached_property
    def marks(self):
        return {piece.name: number for number, piece in enumerate(self.kept) if piece.is_mark}

    @cached_property
    def places(self):
        found = {}
        for number, piece in enumerate(self.kept):
            if not piece.is_mark:
                found.setdefault(piece.place, number)
        return found

    def numbered(self, pieces):
        """The numbers of pieces, and the least for each; nothing asks for them where all items stand at the section's end."""
        if not self.beside and all(number == len(self.kept) for number, _ in self.soft):
            return [None] * len(pieces), [-1] * len(pieces)
        numbers = list(map(self.number, pieces))
        return numbers, self.least(numbers)

    def number(self, piece):
        """The number of the piece of the file that one after the passes stands for; None for one that a pass has added."""
        if piece.is_mark:
            return self.marks.get(piece.name)
        found = self.numbers.get(id(piece), self.places.get(piece.place))
        is_way = piece.word == "j" and found is not None and self.kept[found].word != "j"  # to or from a loop
        return None if is_way else found

    @staticmethod
    def least(numbers):
        """For each piece of some with these numbers the least number of it and of those after it: the items up to there come
        before it."""
        found, last = [], 0
        for number in numbers:
            last = last if number is None else number
            found.append(last)
        for index in range(len(found) - 2, -1, -1):
            found[index] = min(found[index], found[index + 1])
        return found
