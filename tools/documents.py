#!/usr/bin/env python3
"""Makes what README.md and docs/sfi.1 say of the commands from what the program itself says of them: their rows in
crates/sfi_command/src/commands/, by the list in commands.rt.

    tools/documents.py             # compares, prints what differs, and ends in 1 where something does
    tools/documents.py --write     # writes both

README.md has the table of commands; sfi.1 the sections SYNOPSIS, COMMANDS and OPTIONS.
"""
import pathlib
import re
import sys
from dataclasses import dataclass

TOP = pathlib.Path(__file__).resolve().parent.parent
SOURCE = TOP / "crates" / "sfi_command" / "src"
README, MANUAL = TOP / "README.md", TOP / "docs" / "sfi.1"


@dataclass(frozen=True)
class Option:
    name: str
    value: str
    is_repeated: bool
    about: str
    is_word: bool = False  # a text that has to be given, without the option's name
    is_needed: bool = False  # an option that has to be given


@dataclass(frozen=True)
class Command:
    name: str
    about: str
    notes: str
    options: tuple


# ---- what the program says

def without_texts(code):
    """Code with a number in the place of each text, and the texts."""
    texts = []

    def numbered(found):
        texts.append(re.sub(r"\\(.)", r"\1", re.sub(r"\\\n\s*", "", found[1])))
        return f'"{len(texts) - 1}"'
    return re.sub(r'"((?:[^"\\]|\\.)*)"', numbered, re.sub(r"^\s*//.*", "", code, flags=re.M), flags=re.S), texts


def field(name, block, texts):
    return texts[int(re.search(rf'{name}:\s*"(\d+)"', block)[1])]


def option_of(block, texts):
    value = re.search(r'Takes::(Texts?|Count|Number|Word|Needed)\b[^"]*"(\d+)"', block)
    kind, word = (value[1], texts[int(value[2])]) if value else ("", "")
    return Option(field("name", block, texts), word, kind == "Texts", field("about", block, texts), kind == "Word", kind == "Needed")


def rows(kind, code):
    """The rows of this kind that have a name, by it."""
    return re.findall(rf"const (\w+): {kind} = {kind} \{{(.*?)\n\}};", code, re.DOTALL)


def commands(code, files):
    """The rows of the commands that commands.rt lists, of these files."""
    code, texts = without_texts(code)
    shared = {name: option_of(block, texts) for name, block in rows("OptionRow", code)}
    listed = re.findall(r"(\w+)::(\w+)", code.partition("const COMMANDS")[2].partition("];")[0])
    return [command_of(name, files[module], shared) for module, name in listed]


def command_of(name, code, shared):
    code, texts = without_texts(code)
    row = dict(rows("CommandRow", code))[name]
    blocks = re.findall(r'OptionRow \{(.*?about:\s*"\d+")|\b([A-Z][A-Z_]+)\b(?=[,\]])', row.partition("options:")[2], re.DOTALL)
    made = tuple(shared[constant] if constant else option_of(block, texts) for block, constant in blocks)
    return Command(*(field(it, row, texts) for it in ("name", "about", "notes")), made)


def all_commands():
    files = {path.stem: path.read_text(encoding="utf-8") for path in (SOURCE / "commands").glob("*.rt")}
    return commands((SOURCE / "commands.rt").read_text(encoding="utf-8"), files)


# ---- README.md

def spelled(option):
    if option.is_word:
        return option.value
    words = f"--{option.name}" + (f" {option.value}" if option.value else "")
    return words if option.is_needed else f"[{words}]" + (".." if option.is_repeated else "")


def table(found):
    rows = ["| command | what it does |", "|---|---|"]
    for it in found:
        line = " ".join(["sfi", it.name, *map(spelled, it.options)])
        rows.append(f"| `{line}` | {it.about} |")
    return "\n".join(rows) + "\n"


def with_table(text, found):
    return re.sub(r"\| command \|.*\n(?:\|.*\n)+", lambda _: table(found), text, count=1)


# ---- sfi.1

def escaped(text):
    return text.replace("\\", "\\e").replace("-", "\\-")


def roff(text):
    """A help text as lines of a manual page: what is indented stays as it is."""
    lines, is_kept = [], False
    for line in text.split("\n"):
        if line.startswith("  ") != is_kept and line:
            lines.append(".fi" if is_kept else ".nf")
            is_kept = not is_kept
        lines.append(escaped(line.strip()) or ".sp")
    return "\n".join(lines + [".fi"] * is_kept)


def signature(option):
    if option.is_word:
        return f".I {option.value}"
    if option.is_needed:
        return f".BI \\-\\-{option.name} \" {option.value}\""
    if not option.value:
        return f".RB [ \\-\\-{option.name} ]"
    return f".RB [ \\-\\-{option.name}\n.IR {option.value} ]" + ".\\|." * option.is_repeated


def synopsis(found):
    parts = []
    for it in found:
        parts.append("\n".join([f".B sfi {it.name}", *map(signature, it.options)]))
    return "\n.br\n".join(parts + [".B sfi help\n.RI [ COMMAND ]", ".B sfi \\-\\-version"]) + "\n"


def described(found):
    notes = [(it, it.notes.partition("\n\nExit status:")[0]) for it in found]
    return "".join(f".TP\n.B {it.name}\n{escaped(it.about)}.\n.sp\n{roff(said)}\n" for it, said in notes) + (
        ".TP\n.B help\nPrint a summary of the commands and of the exit statuses; or of one command what it reads and prints, its\n"
        "options, its exit statuses and an example.\n")


def options(found):
    lines = []
    for it in found:
        for option in it.options:
            name = f'.BI \\-\\-{option.name} " {option.value}"' if option.value else f".B \\-\\-{option.name}"
            name = f".I {option.value}" if option.is_word else name
            lines.append(f".TP\n{name}\n.RB ( {it.name} )\n{escaped(option.about)}.\n")
    return "".join(lines) + (".TP\n.BR \\-h \", \" \\-\\-help\nPrint what\n.B sfi help\nprints of the command.\n"
                             ".TP\n.BR \\-V \", \" \\-\\-version\nPrint the name and the version of the program.\n")


def with_sections(text, found):
    made = {"SYNOPSIS": synopsis(found), "COMMANDS": described(found), "OPTIONS": options(found)}
    for name, body in made.items():
        text = re.sub(rf"(?<=^\.SH {name}\n).*?(?=^\.SH )", lambda _, body=body: body, text, count=1, flags=re.M | re.S)
    return text


# ---- both

def wanted():
    """The text that each document has to have."""
    found = all_commands()
    return {README: with_table(README.read_text(encoding="utf-8"), found),
            MANUAL: with_sections(MANUAL.read_text(encoding="utf-8"), found)}


def main(words):
    if words not in ([], ["--write"]):
        sys.exit("usage: tools/documents.py [--write]")
    stale = {path: text for path, text in wanted().items() if text != path.read_text(encoding="utf-8")}
    for path, text in stale.items():
        if words:
            path.write_text(text, encoding="utf-8")
        print(f"{path.relative_to(TOP)} {'is written anew' if words else 'differs from what the rows of the commands say: tools/documents.py --write'}")
    return 1 if stale and not words else 0


if __name__ == "__main__":
    sys.exit(main(sys.argv[1:]))
