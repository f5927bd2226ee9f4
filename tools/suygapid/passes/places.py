"""Has the debug information leave out where a variable is, wherever the passes have made that wrong: a debugger then says that
it is optimized out."""
import re
from dataclasses import dataclass

from suygapid.passes.debug_data import Reader, Unknown, atoms_of

SECTION = re.compile(r"\t\.section\s+\"?(\.debug_(?:info|abbrev|loclists|loc))\"?\s*(,|$)")
SWITCH = re.compile(r"\t\.(section|text|data|bss|pushsection|popsection|previous)\b")
LABEL = re.compile(r"\S+:")
SUBPROGRAM = 0x2e
LOW, LOCATION = 0x11, 0x02
LOCATIONS = (LOCATION, 0x7e, 0x2111)  # also the value of an argument at a call
ARGUMENTS = (0x49, 0x410a)  # entries of these, which say in which register one is
EXPRESSION, STRING, IMPLICIT = 0x18, 0x08, 0x21
# The kind of an attribute's value by its form, as of an operation's operand.
FORMS = {0x01: "4", 0x0b: "1", 0x05: "2", 0x06: "4", 0x07: "8", 0x1e: "16", 0x0c: "1", 0x0d: "L", 0x0e: "4", 0x0f: "L", 0x10: "4",
         0x11: "1", 0x12: "2", 0x13: "4", 0x14: "8", 0x15: "L", 0x17: "4", 0x19: "0", 0x1a: "L", 0x1b: "L", 0x1f: "4", 0x20: "8",
         0x22: "L", 0x23: "L", 0x25: "1", 0x26: "2", 0x28: "4", 0x29: "1", 0x2a: "2", 0x2c: "4", 0x21: "0",
         0x09: "B", 0x0a: "C"}
END, OFFSETS, BASE, ADDRESSES, LENGTH = 0, 4, 6, 7, 8  # kinds of an entry of a list
NAME = re.compile(r"[A-Za-z_.$][\w.$]*")
BASE_TAKEN = re.compile(r"-[A-Za-z_.$][\w.$]*$")


@dataclass(frozen=True)
class Range:
    """The addresses from one to another, which are sums of a label and a number, and what is taken from both, if anything."""
    begin: str
    end: str
    less: str = ""

    @staticmethod
    def of(kind, first, second):
        """That of an entry of DWARF 5."""
        if kind == OFFSETS:
            return Range(first.rpartition("-")[0], second.rpartition("-")[0])
        return Range(first, second.removesuffix(f"-{first}") if kind == LENGTH else second)

    @staticmethod
    def of_old(first, second):
        """That of an entry of DWARF 4."""
        base = BASE_TAKEN.search(first)
        less = base[0] if base else ""
        return Range(first.removesuffix(less), second.removesuffix(less), less)

    def labels(self):
        return [NAME.match(text)[0] for text in (self.begin, self.end) if NAME.match(text)]

    def lines(self):
        return [f"\t.4byte\t{self.begin}{self.less}", f"\t.4byte\t{self.end}{self.less}"]


class Places:
    """The lines of a file's data, of which those of debug information change."""

    def __init__(self, lines, shown):
        self.lines, self.shown = list(lines), shown
        self.sections = {}
        atoms = None
        for number, line in enumerate(lines):
            if SWITCH.match(line):
                found = SECTION.match(line)
                atoms = self.sections.setdefault(found[1], []) if found else None
            elif atoms is not None and not LABEL.fullmatch(line):
                atoms += atoms_of(number, line)

    def right(self):
        """The lines, without wrong places."""
        if ".debug_loclists" in self.sections:
            self.lists(Reader(self.sections[".debug_loclists"]))
        if ".debug_loc" in self.sections:
            self.old_lists(Reader(self.sections[".debug_loc"]))
        if ".debug_info" in self.sections:
            self.entries(Reader(self.sections[".debug_info"]), abbreviations(Reader(self.sections[".debug_abbrev"])))
        return [line for line in self.lines if line is not None]

    def lists(self, reader):
        """The lists of DWARF 5."""
        reader.skip(8)
        reader.skip(4 * reader.number())
        while reader.goes_on():
            first = reader.at
            kind = reader.number()
            if kind == BASE:
                reader.atom()
            elif kind in (OFFSETS, ADDRESSES, LENGTH):
                place = Range.of(kind, reader.text(), reader.text())
                self.judge(place, reader.expression(), reader.lines_from(first), [f"\t.byte\t{ADDRESSES}"])
            elif kind != END:
                raise Unknown(f"an entry of kind {kind}")

    def old_lists(self, reader):
        """Those of DWARF 4."""
        while reader.goes_on():
            first, place = reader.at, Range.of_old(reader.text(), reader.text())
            if NAME.match(place.begin):  # no end of a list, and no other base
                self.judge(place, reader.expression(), reader.lines_from(first), [])

    def judge(self, place, expression, numbers, before):
        """Has an entry of a list, on lines of these numbers, hold where the registers that it names are right alone."""
        named, labels = expression.registers(), place.labels()
        parts = self.shown.parts(*labels, named) if named and len(labels) == 2 else [(None, None)]
        if parts == [(None, None)]:
            return
        said = [self.lines[number] for number in sorted({atom.line for atom in (expression.length, *expression.atoms)})]
        for number in numbers:
            self.lines[number] = None
        ranges = [Range(begin or place.begin, end or place.end, place.less) for begin, end in parts]
        self.lines[numbers[0]] = "\n".join(line for part in ranges for line in [*before, *part.lines(), *said]) or None

    def entries(self, reader, table):
        """What says where a variable is throughout its scope."""
        reader.skip(4)
        version = reader.number()
        if version not in (4, 5):
            raise Unknown(f"version {version}")
        reader.skip(6 if version == 5 else 5)
        lows = [""]
        while reader.goes_on():
            code = reader.leb()
            if code:
                tag, has_children, attributes = table[code]
                low = self.entry(reader, tag, attributes, "" if tag == SUBPROGRAM else lows[-1])
                lows += [low] * has_children
            elif len(lows) > 1:
                lows.pop()

    def entry(self, reader, tag, attributes, low):
        """Goes through an entry, and answers the label of its function."""
        for attribute, form in attributes:
            if form == EXPRESSION:
                expression = reader.expression()
                if attribute in LOCATIONS and (attribute != LOCATION or tag not in ARGUMENTS):
                    self.judge_throughout(expression, low)
            elif tag == SUBPROGRAM and attribute == LOW:
                low = reader.text()
            elif form == STRING:
                reader.string()
            elif form in FORMS:
                reader.operand(FORMS[form])
            else:
                raise Unknown(f"an attribute of form {form}")
        return low

    def judge_throughout(self, expression, low):
        """Empties an expression, whose room stays: its length becomes a 0 that takes the expression's bytes, too."""
        named = expression.registers()
        if named and named & self.shown.wrong_with(low):
            for atom in expression.atoms:
                self.lines[atom.line] = None
            size = sum(atom.size for atom in expression.atoms)
            self.lines[expression.length.line] = "\t.byte\t" + "0x80, " * size + "0"


def abbreviations(reader):
    """By its code, the tag of an entry, whether others stand in it, and its attributes with their forms."""
    table = {}
    while code := reader.leb():
        tag, has_children, attributes = reader.leb(), bool(reader.number()), []
        while True:
            attribute, form = reader.leb(), reader.leb()
            if form == IMPLICIT:
                reader.leb()
            if not form:
                break
            attributes.append((attribute, form))
        table[code] = tag, has_children, attributes
    return table
