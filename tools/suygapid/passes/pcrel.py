"""Which symbol the lower part of an address beside the pc belongs to, by the label of its `auipc`."""
from suygapid.passes.assembly import Label
from suygapid.passes.operands import PART, symbol


def pcrel_labels(pieces):
    """By each label that stands before an `auipc` of a `%pcrel_hi`, the symbol that this speaks of."""
    found, labels = {}, []
    for piece in pieces:
        if isinstance(piece, Label):
            labels.append(piece.name)
            continue
        if not piece.word.startswith("."):
            part = PART.fullmatch(piece.operands[-1]) if piece.word == "auipc" and piece.operands else None
            if part and part.group(1) == "pcrel_hi":
                found.update(dict.fromkeys(labels, symbol(part.group(2), piece.place)))
            labels = []
    return found
