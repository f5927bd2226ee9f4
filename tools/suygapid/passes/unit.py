"""What the lines of one file of assembly say: its code by sections, and all else as it is.

A section of code holds pieces, which are instructions (Op) and labels (Mark), and soft items: lines for debug information
that speak of a place in the code and change nothing there."""
import re
from dataclasses import dataclass, field

from suygapid.passes import landings
from suygapid.passes.assembly import LABEL, Label, Lines, Refused, is_one_statement, read_assembly
from suygapid.passes.facts import SHAPES
from suygapid.passes.instructions import Converter, Op
from suygapid.passes.pcrel import pcrel_labels
from suygapid.passes.program import Mark

SMALL_NAMES = (".sdata", ".sbss", ".srodata")
DEBUG_NAMES = (".debug", ".eh_frame", landings.SECTION, ".note", ".comment", ".stab", ".riscv.attributes")
DESTRUCTORS = ".fini_array"
ARRAYS = (".preinit_array", ".init_array", DESTRUCTORS)
SWITCHING = (".section", ".pushsection", ".text", ".data", ".bss", ".rodata", ".popsection", ".previous")
ALIGNING = (".align", ".p2align", ".balign", ".option")  # a word's or a bundle's beginning is all that code needs
CONTENT = (".string", ".word", ".byte", ".half", ".zero", ".ascii", ".asciz", ".4byte", ".2byte", ".quad", ".dword",
           ".insn", ".long", ".short")
WORD = re.compile(r"[A-Za-z_.$][\w.$]*")
HERE = re.compile(r"\.\s*([+-]|$)")  # a value that is the place where it stands
TWO_NAMES = re.compile(r'(\t\.file\s+\d+)\s+"([^"]*)"\s+"([^"]*)"(.*)')
THREAD_LOCAL_OPERAND = re.compile(r"%(tprel|tls)_")
THREAD_LOCAL = "thread-local data: there is one thread, so compile without _Thread_local and __thread"
WANTS = "\t.reloc ., R_RISCV_NONE, "
WANTS_CONSTRUCTORS = WANTS + "__sfi_begin_wanted"  # the runtime's part that calls them
WANTS_ATEXIT = WANTS + "atexit"  # the C library's, which runs destructors
converted_lines: dict[str, tuple[list, set]] = {}  # by a line of any file: what becomes of it, and the names that this speaks of
NAME = re.compile(r"[A-Za-z_]\w{0,254}", re.ASCII)  # what a table of names may have
MARKING = re.compile(r"\s*\.(?:weak|protected)\s+(\S+)")


@dataclass
class Section:
    """A section of code: its own line, its pieces, and its soft items, each with the number of the piece it stands before."""
    line: str
    pieces: list = field(default_factory=list)
    soft: list = field(default_factory=list)


def is_debug(name):
    return name.startswith(DEBUG_NAMES)


def is_small(name):
    return any(name == small or name.startswith(small + ".") for small in SMALL_NAMES)


def is_code_section(name, line):
    flags = re.search(r',\s*"([^"]*)"', line)  # a name, too, may be quoted
    return name == ".text" or name.startswith(".text.") or bool(flags and "x" in flags.group(1))


def without_labels(part):
    """A line's statement."""
    while match := LABEL.match(part):
        part = part[match.end():]
    return "\t" + part.strip()


def with_one_name(text):
    """A `.file` that has the folder apart, as clang writes it, as older versions of `as` take it."""
    match = TWO_NAMES.fullmatch(text)
    return f'{match[1]} "{match[2]}/{match[3]}"{match[4]}' if match else text


def spoken_of(made):
    """The names of which the instructions of these words and operands speak."""
    return {WORD.match(operands[-1])[0] for word, operands in made if SHAPES.get(word, "")[-1:] in ("J", "A")}


class Unit:
    """A file's sections of code by their names, the other lines, and what the file says of its symbols."""

    def __init__(self, name, text):
        self.name = name
        self.verbatim = []  # the lines of data, debug information and symbols
        self.symbols = []  # lines about symbols that stand between code
        self.sections = {}
        self.small = set()  # the objects in small data
        self.spoken = set()  # the names that code speaks of
        self.data_names = set()  # those that data and aliases speak of
        self.globals, self.weak, self.defined = set(), set(), set()
        self.landings = []  # the operands in the tables of exceptions
        self.marked = []  # the names that SFI_EXPORT and SFI_IMPORT of gates.h stand before
        self.locations = {}  # by an instruction's place, the lines `.loc` that hold there
        self.stack, self.previous = [], None
        self.current, self.current_name = None, ".text"
        self.has_debug_data = False
        self.location, self.is_locating = None, False
        self.known = {}  # by a line that is one instruction, the words and operands of what becomes of it
        self.read(text)

    def read(self, text):
        self.converter = Converter(pcrel_labels(read_assembly(self.name, text)) if "auipc" in text else None)
        self.switch(".text", "\t.text")
        lines = Lines(self.name)
        for number, line in enumerate(text.splitlines(), 1):
            place, made = lines.place(number, line), self.known.get(line) or self.known_elsewhere(line)
            if made is not None and self.current is not None:
                self.add(made, place)
                continue
            for part, pieces in lines.parts(line, place):
                self.take(part, pieces, line)
        for name in self.imports():  # an archive's gate wouldn't be taken for a weak reference
            for told in (self.verbatim, self.symbols):
                told[:] = [line for line in told if not ((found := MARKING.fullmatch(line)) and found[1] == name)]

    def known_elsewhere(self, line):
        """What becomes of a line of code that another file had, too, or None."""
        if line not in converted_lines or self.current is None:
            return None
        made, spoken = converted_lines[line]
        self.spoken |= spoken
        self.known[line] = made
        return made

    def exports(self):
        """The names that are marked and defined here."""
        return [name for name in self.marked if name in self.defined]

    def imports(self):
        """The names that are marked as gates, and that this file doesn't define."""
        return [name for name in self.marked if name in self.weak and name not in self.defined]

    def take(self, part, pieces, line):
        for piece in pieces:
            if isinstance(piece, Label):
                self.label(piece.name)
        statement = pieces[-1] if pieces else None
        if statement is None or isinstance(statement, Label):
            return
        if statement.word in SWITCHING:
            self.section_directive(statement, part)
        elif self.current is None:
            self.data_line(part, statement)
        elif statement.word.startswith("."):
            self.directive(part, statement)
        else:
            made = self.converted(statement)
            if is_one_statement(line):
                self.known[line] = made
                if "%pcrel" not in line:
                    converted_lines[line] = made, spoken_of(made)
            self.add(made, statement.place)

    # Sections.

    def switch(self, name, line):
        self.previous = (self.current_name, self.current_line())
        self.current_name = name
        if is_code_section(name, line):
            self.current = self.sections.setdefault(name, Section(line))
            return
        self.current = None
        self.has_debug_data |= name.startswith(".debug")
        self.verbatim.append(line)
        if name.startswith(ARRAYS):
            self.verbatim.append(WANTS_CONSTRUCTORS)
        if name.startswith(DESTRUCTORS):
            self.verbatim.append(WANTS_ATEXIT)

    def current_line(self):
        return self.current.line if self.current else f"\t.section {self.current_name}"

    def section_directive(self, statement, part):
        line = without_labels(part)
        if statement.word == ".popsection":
            if not self.stack:
                raise Refused(statement.place, ".popsection without .pushsection")
            return self.switch(*self.stack.pop())
        if statement.word == ".previous":
            return self.switch(*self.previous)
        if statement.word == ".pushsection":
            self.stack.append((self.current_name, self.current_line()))
            line = line.replace(".pushsection", ".section", 1)
        return self.switch(statement.operands[0].strip('"') if statement.operands else statement.word, line)

    def label(self, name):
        self.defined.add(name)
        if self.current is not None:
            self.current.pieces.append(Mark(name, name.startswith(".")))
            return
        self.verbatim.append(f"{name}:")
        if is_small(self.current_name):
            self.small.add(name)

    # Lines.

    def data_line(self, part, statement):
        operands = statement.operands
        if statement.word in (".set", ".equ") and is_small(self.current_name) and HERE.match(operands[-1]):
            self.small.add(operands[0])
        self.symbol_directive(statement)
        if self.current_name.startswith(landings.SECTION):
            self.landings += operands
        if not is_debug(self.current_name) and not statement.word.startswith((".size", ".type")):
            self.data_names.update(WORD.findall(" ".join(it for it in operands if not it.startswith('"'))))
        text = without_labels(part)
        self.verbatim.append(with_one_name(text) if statement.word == ".file" else text)

    def symbol_directive(self, statement):
        word, operands = statement.word, statement.operands
        if word in (".globl", ".global", ".weak"):
            self.globals.update(operands)
        if word == ".weak":
            self.weak.update(operands)
        if word == ".protected":
            self.mark(operands[0], statement.place)
        if word in (".set", ".equ"):
            self.data_names.update(WORD.findall(operands[1]))
            self.globals.add(operands[0])
            self.defined.add(operands[0])

    def mark(self, name, place):
        if name.startswith("_Z"):
            raise Refused(place, f"{name}: what a host knows by its name wants extern \"C\"")
        if not NAME.fullmatch(name):
            raise Refused(place, f"{name}: a name that a host knows has at most 255 letters, digits and _")
        if name not in self.marked:
            self.marked.append(name)

    def add(self, made, place):
        """Adds the instructions of these words and operands."""
        self.is_locating = False
        for word, operands in made:
            self.current.pieces.append(Op(word, operands, place))
        if self.location:
            self.locations[place] = self.location

    def converted(self, statement):
        """The words and operands of the instructions that become of one."""
        if any(map(THREAD_LOCAL_OPERAND.match, statement.operands)):
            raise Refused(statement.place, THREAD_LOCAL)
        found = [(op.word, op.operands) for op in self.converter.convert(statement)]
        self.spoken |= spoken_of(found)
        return found

    def directive(self, part, statement):
        """A directive between instructions."""
        word, text = statement.word, without_labels(part)
        if word == ".loc":
            self.locate(re.sub(r"\s+view\s+\S+", "", text))
        elif word == ".size" or word.startswith(".cfi_") and word != ".cfi_sections":
            self.current.soft.append((len(self.current.pieces), text))
        elif word in CONTENT or word in (".set", ".equ") and HERE.match(statement.operands[1]):
            raise Refused(statement.place, f"{word} in a code section")
        elif word not in ALIGNING:
            self.symbol_directive(statement)
            self.symbols.append(with_one_name(text) if word == ".file" else text)

    def locate(self, text):
        self.location = (*self.location, text) if self.is_locating else (text,)
        self.is_locating = True

    def near_small(self):
        """The small objects whose place is this file's to say: another file may define a weak one."""
        return self.small - self.weak
