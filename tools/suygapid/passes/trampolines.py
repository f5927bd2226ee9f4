"""gcc's code on the stack, which can't run in a sandbox. Where the address of a nested function is
taken, gcc writes four instructions into the frame that set the static chain, t2, and jump to the
function."""
from suygapid.passes.assembly import Refused

# The instructions that are written, less what depends on addresses: `lui t2` and `lui t0` are
# or-ed to an address's upper part, `addi t2, t2` and `jr` on t0 to the lower part.
ORED = {"951", "695"}
NUMBERS = {"229376", "163840"}  # the upper parts of the other two


def check_trampolines(sections):
    """Refuses code that writes these instructions."""
    for section in sections:
        found = {op.operands[-1]: op.place for op in section.ops if op.word in ("ori", "li")}
        if ORED | NUMBERS <= set(found):
            raise Refused(found["951"], "code on the stack, which can't run: the address of a nested function is taken")
