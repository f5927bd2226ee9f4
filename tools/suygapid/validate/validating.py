"""The differences between a compiler's object file and the rewritten one.

Both codes are cut into stretches from one branch, call or jump by a register to the next, in which each register holds a sum
of what registers held at the beginning. Each access of one code has to be one of the other, with equal addresses and values, in
an order that changes nothing; branches compare equal values, and calls and returns find equal registers. What that wants of
registers at a stretch's beginning has to hold after all stretches before it. So the passes may move, leave out and share what
they like. A mask is taken to leave an address as it is where this lies no farther from one that the program accesses than the
room that the linker leaves at the data's ends. Data, addresses in them and symbols have to be the same.

It takes for granted that

- what the passes suppose holds (docs/C.md); the compiler's code leaves gp, tp and the sandbox's own registers alone; a function
  puts back sp and ra, too, and a caller doesn't read what it may overwrite; accesses lie in objects or the stack, sp in the data
  region; a jump by a table leads to labels of its section;
- the two parts of an address that are added up are those of one symbol, with addends in one block of 2048 bytes;
- the linker's step (elf/moving.py) makes the addresses of a program that can be moved relative to their regions;
- `ld` relocates, leaves the room that the file asks for, and puts small objects where the script says.
"""
import re

from suygapid.validate import comparing_data
from suygapid.validate.machine_code import Code, SectionOffset
from suygapid.validate.requirements import Requirements
from suygapid.validate.walking import Walk

MARGIN = re.compile(r"__sfi_(below|above)_(\d+)")


def margins(objects):
    """How far below and above an object the linker leaves room."""
    found = {"below": 0, "above": 0}
    for match in map(MARGIN.fullmatch, objects.named):
        if match:
            found[match[1]] = max(found[match[1]], int(match[2]))
    return found["below"], found["above"]


def complaints(left, right, is_movable=False):
    """The line of the compiler's assembly, or None, and what is wrong there, of each instruction that isn't done. Of a program
    that can be moved, an address is the sum of a part that is relative to its region and of that region's base."""
    codes = Code(left, True), Code(right, False, is_movable)
    walk = Walk(*codes)
    Requirements(walk, *margins(right))
    found = [told(codes[0], place, what) for place, what in walk.complaints]
    return sorted(set(found), key=lambda it: it[0]) + [(None, what) for what in comparing_data.differences(left, right)]


def told(code, place, what):
    """The line that a place has, and the function that it's in."""
    before = [line for offset in range(place.offset, -1, -1)
              if (line := code.lines.get(SectionOffset(place.section, offset)))]
    return before[0] if before else 0, f"{code.owner(place) or place.section}: {what}"
