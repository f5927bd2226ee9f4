"""The tables that say where exceptions lead to from calls. Each has, for some calls, where they begin less the function's beginning,
where they end less where they begin, and where exceptions lead to less the function's beginning, or 0."""
import re

from suygapid.passes.debug_data import LEBS, SIZES, STRINGS, atoms_of

SECTION = ".gcc_except_table"
NAME = r"[A-Za-z_.$][\w.$]*"
DIFFERENCE = re.compile(rf"({NAME})-({NAME[:-1]}+)")  # not of a place less `.`
LENGTH = re.compile(rf"\t\.uleb128\s+({NAME})-({NAME})$")  # of a part of a table, which clang leaves to the assembler
LENGTH_BYTES = 3  # that such a number gets
SWITCH = re.compile(r"\t\.(?:section\s+\"?([^\",\s]+)|text|data|bss)")
SIZED = (*SIZES, *LEBS, *STRINGS, ".zero")
ALIGN = re.compile(r"\t\.p?2?align\s+(\d+)")


def labels(differences):
    """The labels that the tables speak of, and those of them that exceptions lead to, by the differences that they have."""
    pairs = [found.groups() for found in map(DIFFERENCE.fullmatch, differences) if found]
    firsts, seconds = ({pair[side] for pair in pairs} for side in (0, 1))
    begins = firsts & seconds
    ends = {first for first, second in pairs if second in begins}
    return firsts | seconds, firsts - begins - ends


def size_at(place, line):
    """The bytes that a line of a table takes at a place, which is the count of bytes before it."""
    if align := ALIGN.match(line):
        return -place % (1 << int(align[1]))
    if LENGTH.match(line):
        return LENGTH_BYTES
    return sum(atom.size for atom in atoms_of(0, line)) if line.split()[0] in SIZED else 0


def places_of(lines):
    """By a label in a table, its place; and the numbers of the lines that have lengths."""
    found, numbers, place = {}, [], None
    for number, line in enumerate(lines):
        if switch := SWITCH.match(line):
            place = 0 if (switch[1] or "").startswith(SECTION) else None
        elif place is not None and line.endswith(":"):
            found[line[:-1]] = place
        elif place is not None:
            numbers += [number] * bool(LENGTH.match(line))
            place += size_at(place, line)
    return found, numbers


def with_lengths(lines):
    """The lines of a file's data, of which tables have the lengths of their parts as numbers: GNU as takes no others."""
    if not any(map(LENGTH.match, lines)):
        return lines
    found, numbers = places_of(lines)
    made = list(lines)
    for number in numbers:
        end, begin = LENGTH.match(lines[number]).groups()
        length = found[end] - found[begin]
        made[number] = f"\t.byte\t{length & 127 | 128}, {length >> 7 & 127 | 128}, {length >> 14}"
    return made
