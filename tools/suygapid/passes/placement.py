"""Where each instruction is placed, and branches that don't reach their labels.

A branch reaches from 4096 bytes before it to 4094 after it. One that doesn't is inverted, over a
jump."""

from suygapid.passes.control import labels_of
from suygapid.passes.facts import INVERSE
from suygapid.passes.instructions import Op, replace
from suygapid.passes.program import Mark
from suygapid.passes.sizes import BUNDLE, expansions
from suygapid.passes.typed import IN_WORDS
from suygapid.passes.word_places import word_spans

NEAREST, FARTHEST = -4096, 4094
FORMATS = (1, 2)


def next_bundle(place):
    return place + -place % BUNDLE


def pass_op(op, place, image_format):
    """The places where an instruction's first expansion begins and where its last one ends. Each
    stands in one bundle, and a call's ends its bundle."""
    first = None
    for sizes in expansions(op, image_format):
        size = sizes[0]
        if place % BUNDLE + size > BUNDLE:
            place = next_bundle(place)
        if op.is_call:
            place = next_bundle(place + size) - size
        first = place if first is None else first
        place += size
    return first, place


def spans(code, image_format):
    """Where each piece begins and ends, from the place of the first. A label begins a bundle, or a word."""
    if image_format in IN_WORDS:
        return word_spans(code, image_format)
    found, end = [], 0
    for piece in code:
        if piece.is_mark:
            start = end = next_bundle(end)
        else:
            start, end = pass_op(piece, end, image_format)
        found.append((start, end))
    return found


def places(code, image_format):
    """The place of each piece, from the place of the first."""
    return [start for start, _ in spans(code, image_format)]


def far_branches(code, formats=FORMATS, slack=0):
    """The numbers of the branches that don't reach their labels in one of the formats, with some bytes to spare."""
    found, at = set(), labels_of(code)
    for image_format in formats:
        place = places(code, image_format)
        for number, piece in enumerate(code):
            target = None if piece.is_mark or not piece.is_branch else at.get(piece.operands[-1])
            if target is not None and not NEAREST + slack <= place[target] - place[number] <= FARTHEST - slack:
                found.add(number)
    return found


def inverted(op, target):
    """The branch that goes to the target where the given one goes on."""
    return replace(op, word=INVERSE[op.word], operands=(*op.operands[:-1], target))


def over_jump(op, names):
    """A far branch as a branch over a jump."""
    over = names.fresh("over..1")
    return [inverted(op, over), Op("j", op.operands[-1:], op.place), Mark(over, True)]


def with_near_branches(code, names, formats=FORMATS, slack=0):
    """The code in which each branch reaches its label. Each jump lengthens the code, so it's
    looked at again."""
    while far := far_branches(code, formats, slack):
        code = [piece for number, old in enumerate(code)
                for piece in (over_jump(old, names) if number in far else [old])]
    return code
