"""Reads the declarations of a file of definitions (.antt) and the items of a file of code (.rt), each whole, as they stand.

A line of a file of definitions is blank, a comment (`-- ` at its beginning), an import (`use`, `pub mod`, or an operator's
precedence) or of a declaration: its first line, an equation of it (which begins with its name), a closing bracket, or an
indented line, which is of the declaration above it whatever stands between. A file with any other line is refused, by an
error that says which, and so is one with other characters than those of ASCII that are seen and SYMBOLS.
"""
import re
from dataclasses import dataclass

HEAD = re.compile(r"(?:(?:(?:abbrev|unfoldable|pub) )+(record |data )?|(record |data ))([^\s:]\S*)")
IMPORT = re.compile(r"(?:pub )?use [\w.]+\.\{[^{}]*\}|use [\w.]+ as \w+|pub mod \w+|infix[lr]? \d+ \S+")
IMPORT_BEGINS = re.compile(r"(?:pub )?(?:use|mod) |infix[lr]? ")
# A text in quotes, or a comment to the line's end.
QUOTED_OR_NOTE = re.compile(r'("(?:[^"\\]|\\.)*")|(?<![^ (){}.;,@"»])--.*')
BLOCK_COMMENT = re.compile(r"\{-|-\}")
# What stands in definitions and clauses beside the visible characters of ASCII.
SYMBOLS = "ℕℤ→↔λ×⊎⊥¬≡≢≤∷∙◌⟦⟧∶∣«»"
ITEM_ENDS = re.compile(r"[})\]]")


class Unreadable(ValueError):
    """A file that these rules don't cover: its message names the file and the line."""


@dataclass
class Declaration:
    """A declaration: `record `, `data ` or nothing, its name, its lines without comments, the last comment before it, the
    number of its first line, and its text with all comments."""
    kind: str
    name: str
    code: list
    comment: str
    line: int
    text: str


@dataclass
class Definitions:
    """A file of definitions: the lines that import words, and the declarations."""
    imports: list
    declarations: list


def code_of(line):
    """A line without its comment."""
    return QUOTED_OR_NOTE.sub(lambda found: found[1] or "", line).rstrip()


def check_characters(text, file):
    """Refuses characters that a reader doesn't see, or takes for others, as letters of other alphabets."""
    for character in set(text) - {"\n"}:
        if not (" " <= character <= "~" or character in SYMBOLS):
            number = text.partition(character)[0].count("\n") + 1
            raise Unreadable(f"{file}:{number}: the character U+{ord(character):04X}, which isn't one of tools/declarations.py")


def is_equation(code, name):
    """Whether a line that isn't indented gives a case of the declaration `name`; of an operator each part stands in it."""
    if "◌" in name:
        return "=" in code and all(part in code.split() for part in filter(None, name.split("◌")))
    return code.split()[:1] == [name]


class Reader:
    """What is read so far of a file of definitions: the open declaration is the one that the next line may go on with."""

    def __init__(self, text, file):
        self.lines, self.file = text.split("\n"), file
        self.imports, self.found, self.spans = [], [], []
        self.open, self.note = False, None  # the index at which a comment right above begins
        self.comment = []  # the lines of the last comment at the left margin

    def refuse(self, index, why):
        raise Unreadable(f"{self.file}:{index + 1}: {why}")

    def begin(self, index, head):
        first = index if self.note is None else self.note
        comment = " ".join(it[3:].strip(" -") for it in self.comment)
        self.found.append(Declaration(head[1] or head[2] or "", head[3], [], comment, index + 1, ""))
        self.spans.append([first, index])
        self.open = True
        self.go_on(index)

    def go_on(self, index):
        """Gives the open declaration its next line."""
        declaration, span = self.found[-1], self.spans[-1]
        skipped = index - span[1] - 1 if declaration.code else 0
        declaration.code += [""] * skipped + [code_of(self.lines[index])]
        span[1] = index

    def take(self, index, line):
        code = code_of(line)
        if BLOCK_COMMENT.search(re.sub(r'"(?:[^"\\]|\\.)*"', '""', code)):
            self.refuse(index, "a comment in braces")
        head = HEAD.match(line)
        if line.startswith(" ") or ITEM_ENDS.match(line):
            if not self.open:
                self.refuse(index, "a line of no declaration")
            self.go_on(index)
        elif self.open and is_equation(code, self.found[-1].name):
            self.go_on(index)
        elif IMPORT_BEGINS.match(line):
            if not IMPORT.fullmatch(code):
                self.refuse(index, "an import that isn't read")
            self.imports.append(line)
            self.open = False
        elif head:
            self.begin(index, head)
        else:
            self.refuse(index, "neither a declaration, an equation of the one above, a comment nor an import")

    def read(self):
        for index, line in enumerate(self.lines):
            if re.match(r"--( |$)", line):
                self.comment = [line] if self.note is None else [*self.comment, line]
                self.note = index if self.note is None else self.note
                continue
            if line.strip():
                self.take(index, line)
            self.note = None
        for declaration, (first, last) in zip(self.found, self.spans):
            declaration.text = "\n".join(self.lines[first:last + 1])
        return Definitions(self.imports, self.found)


def read(text, file):
    """The definitions of a text; `file` names it in errors."""
    check_characters(text, file)
    found = Reader(text, file).read()
    names = [it.name for it in found.declarations]
    for name in names:
        if names.count(name) > 1:
            raise Unreadable(f"{file}: {name} is declared twice")
    return found


# ---- code

def item_above(lines, index):
    """Where the comment and the attributes right above a line of code begin."""
    while index and re.match(r"\s*(///|#\[)", lines[index - 1]):
        index -= 1
    return index


def only_line(lines, pattern, what, file):
    """The index of the one line that a pattern matches."""
    found = [index for index, line in enumerate(lines) if re.match(pattern, line)]
    if len(found) != 1:
        raise Unreadable(f"{file}: {what} stands there {len(found)} times")
    return found[0]


def lines_of_code(text, file):
    """The lines of a file of code, which has no comment in `/*` that would hide some of them."""
    check_characters(text, file)
    lines = text.split("\n")
    for number, line in enumerate(lines, 1):
        if "/*" in line:
            raise Unreadable(f"{file}:{number}: a comment that may go over lines")
    return lines


def whole_item(text, pattern, what, file):
    """An item at the left margin, with the comment above it: to its `;` in the same line, or to its closing bracket."""
    lines = lines_of_code(text, file)
    head = end = only_line(lines, pattern, what, file)
    if not re.sub("//.*", "", lines[head]).rstrip().endswith(";"):
        end += 1
        while end < len(lines) and not ITEM_ENDS.match(lines[end]):
            if lines[end].strip() and not lines[end].startswith(" "):
                raise Unreadable(f"{file}:{end + 1}: a line within {what} that isn't indented")
            end += 1
    return "\n".join(lines[item_above(lines, head):end + 1])


def impl_of(lines, head, name, file):
    """The line that begins the impl of a method, in a list that is empty where the function is in none."""
    if not lines[head].startswith(" "):
        return []
    above = next(index for index in range(head, -1, -1) if index == 0 or lines[index] and not lines[index].startswith(" "))
    if not re.fullmatch(r"impl\b.*\{", lines[above]):
        raise Unreadable(f"{file}:{above + 1}: fn {name} is in no impl that begins in one line")
    return [lines[above]]


def contract(text, name, file):
    """A function's head with its clauses and the comment above it, up to its body; of a method below the head of its impl."""
    lines = lines_of_code(text, file)
    head = only_line(lines, rf" *pub (extern \"C\" )?fn {name}\b", f"fn {name}", file)
    margin = re.match(" *", lines[head])[0]
    end = head + 1
    while end < len(lines) and lines[end] != margin + "{":
        if lines[end].strip() and not lines[end].startswith((margin + " ", margin + ")", margin + "where")):
            raise Unreadable(f"{file}:{end + 1}: a line that is no clause of {name}")
        end += 1
    found = "\n".join([*impl_of(lines, head, name, file), *lines[item_above(lines, head):end]])
    code = re.sub(r"//.*|^impl.*", "", found, flags=re.M)
    if any(code.count(one) != code.count(other) for one, other in ("{}", "()")):
        raise Unreadable(f"{file}:{end + 1}: the contract of {name} has brackets that don't close")
    return found
