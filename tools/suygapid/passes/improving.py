"""The passes that make the code cheaper, in the order in which they run. The code does the same without them: each keeps calls
and jumps in their order, what is stored where, and the registers that are read later. tools/sfi-validate looks at that."""
from typing import NamedTuple

from suygapid.passes.control import blocks_of
from suygapid.passes.facts import DATA
from suygapid.passes.hoisting import with_hoisted_masks
from suygapid.passes.known import with_known_places
from suygapid.passes.liveness import without_unread
from suygapid.passes.packing import packed, shortened
from suygapid.passes.pairing import with_pairs
from suygapid.passes.placement import with_near_branches
from suygapid.passes.pointing import with_pointing
from suygapid.passes.raising import with_raised_steps
from suygapid.passes.repeating import without_repeated_masks
from suygapid.passes.sharing import with_shared_masks
from suygapid.passes.stepping import with_steps
from suygapid.passes.targeting import with_targets
from suygapid.passes.typed import IN_WORDS, with_plain_jumps

PASSES = ("known", "pointing", "packing", "hoisting", "sharing", "targeting", "stepping", "pairing")


class Whole(NamedTuple):
    """What the passes have to know of the whole file: the data registers that nothing names, and the largest step."""
    registers: tuple
    room: int


def improved(code, passes, image_format, small, names, slack, whole):
    """A part of a file's code after the passes that are named and that the format has. In bundles each branch reaches its label with some
    bytes to spare; `as` makes far branches of code in words."""
    has_known = "known" in passes and small.offsets
    if has_known:
        code = with_known_places(code, small, small.farthest)
    if image_format in IN_WORDS:
        return improved_words(code, passes, names, whole, has_known)
    if "pointing" in passes and image_format == 2:
        code = with_pointing(code, names)
    if "packing" in passes:
        code = packed(code, image_format, names)
    return with_near_branches(code, names, (image_format,), slack)


def improved_words(code, passes, names, whole, is_read):
    """Code in words after its own passes. Where it `is_read`, `known` has left out what nothing reads."""
    code = with_plain_jumps(code)
    if "hoisting" in passes:
        given, code = code, with_hoisted_masks(code, names, *whole)
        code = code if is_read and code is given else without_unread(blocks_of(code))
    if "sharing" in passes:
        code = with_shared_masks(code, whole.registers)
    if "targeting" in passes:
        code = with_targets(code)
    if "stepping" in passes:
        code = with_raised_steps(with_steps(code), whole.registers)
    code = [piece if piece.is_mark or piece.written in DATA else shortened(piece) for piece in code]
    code = with_pairs(code) if "pairing" in passes else code
    return without_repeated_masks(code) if "sharing" in passes else code
