"""How many bytes each instruction takes in code in words, and where it lies there. docs/SOURCE.md says what an instruction
becomes."""
from functools import lru_cache

from suygapid.passes.facts import DATA
from suygapid.passes.instructions import NEAR, RELATIVE, Op
from suygapid.passes.sizes import has_short_form, number_parts
from suygapid.passes.typed import MASKS, SINGLE, WORDS, is_free_step, is_move, is_trapping

WORD = 4
MASK_SIZES = {image_format: (WORD,) * count for image_format, count in MASKS.items()}
CODE_MASK_SIZES = (WORD, WORD)


def part_sizes(op, following, image_format=WORDS):
    """The bytes of each instruction that an instruction becomes, before a piece that follows it, or before None: 2 where
    it has a 16-bit form, which it may take or not."""
    if op.written in DATA:
        return sizes_before(op, following, image_format)
    return sizes_of(op.word, op.operands, op.wide, op.address, image_format)


@lru_cache(maxsize=None)
def sizes_of(word, operands, wide, address, image_format):
    """The same of one that writes no data register, before any piece."""
    return sizes_before(Op(word, operands, None, wide, address=address), None, image_format)


def sizes_before(op, following, image_format):
    masks = MASK_SIZES[image_format]
    if op.word in ("ret", "jr", "jalr"):
        return *CODE_MASK_SIZES, WORD
    if op.word == "la":
        return address_sizes(op, masks, image_format)
    if op.word == "li":
        first, *rest = number_parts(op)
        return *one_size(first, rest[0] if rest else following, masks), *(size for part in rest for size in one_size(part, following, masks))
    return *(masks if is_trapping(op, image_format) else ()), *one_size(op, following, masks)


def address_sizes(op, masks, image_format):
    """The same of `la`. A data register gets its base by masks, unless they are single; any other in an `add` after the address
    in its region."""
    after = masks_after(op, masks)
    if op.address == NEAR:
        return WORD, *after
    if op.address == RELATIVE and not after:
        return WORD, WORD, 2
    return (WORD, *after) * (3 if op.address == RELATIVE and image_format == SINGLE else 2)


def one_size(op, following, masks):
    """The same of what is one instruction without masks."""
    if is_free_step(op, following):
        return (own_size(op),)
    if is_move(op):
        return masks
    before = masks if op.masked_base else ()
    return *before, WORD if before else own_size(op), *masks_after(op, masks)


def masks_after(op, masks):
    return masks if op.written in DATA else ()


def own_size(op):
    return 2 if has_short_form(op) and not op.wide else WORD


def word_spans(code, image_format=WORDS):
    """Where each piece begins and ends. An instruction of 16 bits takes half a word if the other half has one, too, and
    else a word. A label begins a word."""
    found, end, half = [], 0, None  # `half` is the piece before whose last instruction could have 16 bits
    for piece, following in zip(code, [*code[1:], None]):
        sizes = () if piece.is_mark else part_sizes(piece, following, image_format)
        start = None
        for size in sizes:
            if size == 2 and half is not None:
                shorten(found, half, len(found), end)
                at, end, half = end - 2, end, None
            else:
                at, end = end, end + WORD
                half = len(found) if size == 2 else None
            start = at if start is None else start
        if piece.is_mark:
            half = None
        found.append([end if start is None else start, end])
    return [tuple(span) for span in found]


def shorten(found, half, last, end):
    """Ends the piece that takes the first half of a word there, unless it's the piece that takes the second."""
    if half < last:
        found[half][1] = end - 2
