"""The functions of a program, as far as its labels tell: each part of the code from a label that one may begin with."""
from collections import Counter
from dataclasses import dataclass

from suygapid.passes.control import entries, labels_of


@dataclass
class Function:
    """A part of the code, and those of its labels to which other parts lead."""
    code: list
    outer: set

    def entries(self, code):
        """The numbers of the pieces of its code, which may have changed, to which control may come from elsewhere."""
        at = labels_of(code)
        return entries(code) | {at[name] for name in self.outer}


def parts_of(code):
    part = []
    for piece in code:
        if piece.is_mark and not piece.inside and part:
            yield part
            part = []
        part.append(piece)
    yield part


def targets(part):
    """The names to which the instructions of a part may lead."""
    return {piece.operands[-1] for piece in part if piece.operands}


def functions(code):
    parts = [(part, targets(part)) for part in parts_of(code)]
    leading = Counter(name for _, own in parts for name in own)
    for part, own in parts:
        yield Function(part, {name for name in labels_of(part) if leading[name] > (name in own)})
