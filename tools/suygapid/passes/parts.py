"""A file's code in parts that the passes take one by one, so that processes can share them.

A part has the sections between which control goes, but for calls, and for jumps to where control comes from anywhere. What
the passes have to know of the others stands in the code: a label that another part calls, or whose address it takes, is
`taken`, and what leads to another part says which registers may be read there."""
from suygapid.passes.control import Blocks, spoken_of
from suygapid.passes.liveness import Liveness
from suygapid.passes.program import Mark

SECTION = "..section "  # begins the name of a mark that stands before the code of a section


def section_mark(key):
    return Mark(SECTION + key, False, True, True)


def joined(sections):
    """The names of the sections of each part, in order."""
    entered = set().union(*map(spoken_of, sections.values()))
    home = {piece.name: key for key, pieces in sections.items() for piece in pieces
            if piece.is_mark and not piece.taken and piece.name not in entered}
    part_of = {key: [key] for key in sections}
    for key, pieces in sections.items():
        for other in {home.get(piece.operands[-1], key) for piece in pieces if piece.is_goto}:
            if part_of[other] is not part_of[key]:
                together = part_of[key] + part_of[other]
                part_of.update(dict.fromkeys(together, together))
    return [[key for key in sections if part_of[key] is part] if len(part) > 1 else part
            for part in {id(part): part for part in part_of.values()}.values()]


def with_others(sections, parts):
    """Has the code say what its parts have to know of each other."""
    code = [piece for key, pieces in sections.items() for piece in [section_mark(key), *pieces]]
    blocks = Blocks(code)
    alive = Liveness(blocks).at_starts
    number_of = {key: number for number, part in enumerate(parts) for key in part}
    homes, marks = {}, {}
    for key, pieces in sections.items():
        for piece in filter(is_mark, pieces):
            homes[piece.name], marks[piece.name] = number_of[key], piece
    for key, pieces in sections.items():
        for name in spoken_of(pieces):
            if homes.get(name, number_of[key]) != number_of[key]:
                marks[name].taken = True
        for piece in pieces:
            if (piece.is_goto or piece.is_call) and homes.get(piece.operands[-1], number_of[key]) != number_of[key]:
                piece.there = alive[blocks.at[piece.operands[-1]]]


def is_mark(piece):
    return piece.is_mark


def sections_of(code):
    """The code of a part by the names of its sections again."""
    found, key = {}, None
    for piece in code:
        if piece.is_mark and piece.name.startswith(SECTION):
            key = piece.name[len(SECTION):]
            found[key] = []
        else:
            found[key].append(piece)
    return found
