"""Bases that are computed in a data register, in code in words. Where `mv d, a` sets one to what an instruction before it in
the same block has made, and nothing needs a beside d, that instruction writes d, and the move is left out. Where the move
stands directly before an access on d, d is equal to a (`sharing`), and goes in its place where it's read."""

from suygapid.passes.control import Blocks
from suygapid.passes.facts import DATA, bits
from suygapid.passes.instructions import replace
from suygapid.passes.liveness import Liveness
from suygapid.passes.typed import is_on, renamed_reads, step_of, uses

IN_PARTS = ("la", "li")  # what may be two instructions, each with its masks


def is_set(piece):
    """Whether a piece sets a data register to another register."""
    return piece.word == "mv" and piece.operands[0] in DATA and piece.operands[1] not in ("zero", *DATA)


def maker(code, start, number):
    """The number of the instruction that makes what a move takes, in the block from a start on, or None."""
    register, base = code[number].operands
    for earlier in range(number - 1, start - 1, -1):
        piece = code[earlier]
        if piece.is_mark or piece.is_call or uses(piece, register):
            return None
        if piece.written == base:
            return None if piece.word in IN_PARTS or step_of(piece, base) is not None else earlier
        if base in piece.reads:
            return None
    return None


def with_other_reads(code, number, end, live):
    """The pieces after a move up to the block's end with d in the place of a, as long as a isn't written; None where a is
    needed otherwise."""
    register, base = code[number].operands
    is_equal, bit = number + 1 < end and is_on(code[number + 1], register), bits((base,))
    out = []
    for place in range(number + 1, end):
        piece = code[place]
        if piece.is_call or not piece.goes_on and not piece.is_jump:
            return None if live.before[place] & bit else out + code[place:end]
        if base in piece.reads:
            if not is_equal:
                return None
            piece = renamed_reads(piece, base, register)
        out.append(piece)
        if base in piece.writes or register in piece.writes:
            is_needed = base not in piece.writes and live.after[place] & bit
            return None if is_needed else out + code[place + 1:end]
    return None if live.after[end - 1] & bit else out


class Targeter:
    """Puts data registers into the instructions that make bases."""

    def __init__(self, code):
        self.code = list(code)
        self.blocks = Blocks(code)
        self.live = Liveness(self.blocks)

    def targeted(self):
        left_out = set()
        for start, end in zip(self.blocks.starts, self.blocks.ends):
            for number in range(start, end):
                if is_set(self.code[number]) and self.takes_target(start, end, number):
                    left_out.add(number)
        return [piece for number, piece in enumerate(self.code) if number not in left_out]

    def takes_target(self, start, end, number):
        """Puts the data register of a move into the instruction that makes what it takes; whether that's possible."""
        earlier = maker(self.code, start, number)
        later = with_other_reads(self.code, number, end, self.live) if earlier is not None else None
        if later is None:
            return False
        piece = self.code[earlier]
        self.code[earlier] = replace(piece, operands=(self.code[number].operands[0], *piece.operands[1:]))
        self.code[number + 1:end] = later
        return True


def with_targets(code):
    return Targeter(code).targeted() if any(map(is_set, code)) else code
