"""What the evidence states: contracts of public functions, with the definitions and the types in code on which they rest,
each printed whole from its file, whose hash stands above it.
"""
import hashlib
import re
from dataclasses import dataclass

import declarations
import definitions

TOP = definitions.TOP
TYPE = re.compile(r"\b[A-Z]\w*[a-z]\w*\b")
ITEM = r"pub(?:\(crate\))? (?:struct|enum|trait) {}\b"


@dataclass
class Statement:
    """Contracts of one subject: what stands before the functions' names where the prover names them, of each file of code
    below crates/ the functions, and the words from which definitions are sought, where these aren't all that the contracts cite.
    What is printed by itself, without what it cites, which is left to the next section: words, and types in code, each a file
    and a name. What is said before all that."""
    title: str
    place: str
    files: dict
    roots: list = None
    alone: tuple = ()
    types_alone: tuple = ()
    front: str = ""

    def names(self):
        """The functions as the prover names them."""
        return [f"{self.place}::{it}" for functions in self.files.values() for it in functions]


CHECK = "sfi_check/src/verdict.rt"
# Safety without the rules: what a clause of `check` says of bytes is taken of one field alone.
SAFETY = Statement(
    "Safety, by the clauses `accepted` and `safe` of `check`", "sfi_check::verdict", {CHECK: ["check"]},
    [("sfi_safe_runs", "Safety", "AllRunSafely"), ("sfi_image", "Parts", "IsImage"), ("std", "Prelude", "IfOk")],
    alone=(("sfi_safety", "Clean", "IsAccepted"),), types_alone=(("sfi_check/src/accepted.rt", "Accepted"),),
    front="""By `accepted` and `safe` the following holds of bytes for which `check` answers `Ok`: they are the image `IsImage` of sandboxes
`ps`, the field `image` of `IsAccepted`, and `AllRunSafely ps`. Both clauses speak of the same `ps`, the value of the answer's
`Accepted`. What `IsAccepted` says besides makes this no weaker, whatever it means; so neither the words of the rules stand
here, nor what the other clauses cite.

""")
STATEMENTS = [
    SAFETY,
    Statement("`check_stream`, and what else `check` says", "sfi_check::stream", {"sfi_check/src/stream.rt": ["check_stream"]}),
    Statement("`sfi_c_check`", "sfi_c::checking", {"sfi_c/src/checking.rt": ["sfi_c_check"]}),
    Statement("`World`", "sfi_host::world::World", {
        "sfi_host/src/world.rt": ["load", "run_plan", "run_to_call", "waiting", "reply", "write", "enter", "stop"],
        "sfi_host/src/world/adding.rt": ["add"],
        "sfi_host/src/world/calling_back.rt": ["call_back"],
        "sfi_host/src/world/debugging.rt": ["run_until"],
        "sfi_host/src/world/removing.rt": ["remove"],
        "sfi_host/src/world/resetting.rt": ["reset"],
        "sfi_host/src/world/setting.rt": ["set_registers"],
    }),
]


def proved_lines(crate, stated):
    """What the prover says of each function of statements that a crate has."""
    names = [name for it in stated for name in it.names()]
    return [f"fn {name}: proved" for name in names if name.startswith(f"{crate}::")]


@dataclass
class Told:
    """The text of all statements, and the toolchain's words that it cites, each a module and a name."""
    text: str
    kit_words: set


def read(path):
    return path.read_text(encoding="utf-8")


def heading(path):
    return f"### {path.relative_to(TOP)} sha256={hashlib.sha256(path.read_bytes()).hexdigest()}"


def ghost_imports(text):
    """The lines of a file of code that import words into its clauses, from the left margin or an impl's."""
    return [line for line in text.splitlines() if re.match(r" *ghost use ", line)]


def refuse_others(imports, text, file):
    """Refuses what a text cites that is imported from no definitions: from proofs, say, which aren't printed."""
    for line in imports:
        if definitions.IMPORT.search(line) or definitions.WHOLE.search(line):
            continue
        names = re.search(r"\{(.*)\}", line) or re.search(r" as (\w+)", line)
        known = {(it.partition(" as ")[2] or it).strip() for it in names[1].split(",")} if names else set()
        cited = definitions.cited_of(known, text)
        if cited:
            raise declarations.Unreadable(f"{file}: {sorted(cited)[0]} is imported from no definitions: {line.strip()}")


class Printer:
    """What is printed already, and what is cited by it."""

    def __init__(self):
        self.words = definitions.all_words()
        self.order = definitions.crate_names()
        self.items = self.all_items()
        self.shown, self.cited_in_kit = set(), set()
        self.later = set(), set()  # words and types that a contract cites and that are left to the next section

    def all_items(self):
        """Of each type and trait in code its name and the files that declare it, tests left out."""
        found = {}
        for path in sorted((TOP / "crates").glob("*/src/**/*.rt")):
            if not {"tests", "tests.rt"} & set(path.parts):
                for name in re.findall("^" + ITEM.format(r"(\w+)"), read(path), re.M):
                    found.setdefault(name, []).append(path)
        return found

    # ---- definitions

    def resolve(self, name):
        """The key of a word of this repository, or None for a type in code or a word of the toolchain, which it notes."""
        if name in self.words:
            return self.words[name].key
        if name[0] not in self.order:
            self.cited_in_kit.add((f"Rattle.{name[0]}.specs.{name[1]}", name[2]))
        elif not name[1].startswith("declared"):
            raise declarations.Unreadable(f"{' '.join(name)} is cited, and declared nowhere")
        return None

    def closure(self, names):
        """The words on which these rest, each once, and the files and names of the types in code that they cite."""
        found, types = [], []
        left = list(names)
        while left:
            name = left.pop()
            key = self.resolve(name)
            if key is None and name[1].startswith("declared") and name[0] in self.order:
                types.append(declared_place(*name[:2]))
            elif key and key not in found:
                found.append(key)
                left += sorted(self.words[key].names)
        return found, types

    def definitions(self, keys):
        """The texts of words by crate and file, the highest crate first, below what the file imports."""
        parts = []
        for crate, file in sorted({key[:2] for key in keys}, key=lambda it: (-self.order.index(it[0]), it[1])):
            path = definitions.path_of(crate, file)
            whole = declarations.read(read(path), path.relative_to(TOP))
            some = [it for it in whole.declarations if (crate, file, it.name) in keys]
            refuse_others(whole.imports, "\n".join(line for it in some for line in it.code), path.relative_to(TOP))
            parts += [heading(path), "\n".join(whole.imports), *(it.text for it in some)]
        return parts

    # ---- code

    def cited_by(self, text, path):
        """The words that a piece of a file of code cites."""
        code, found = re.sub(r"//.*|^ *ghost use .*", "", text, flags=re.M), set()
        refuse_others(ghost_imports(read(path)), code, path.relative_to(TOP))
        for line in ghost_imports(read(path)):  # each for itself: an impl may give a name to another word
            known = definitions.imports(line)
            found |= {known[name] for name in definitions.cited_of(known, code)} | definitions.qualified(line, code)
        return found

    def place_of_type(self, name, path):
        """The file of a type in code that a file of its crate names, or one that imports it; None where that is none of these."""
        found = self.items.get(name, [])
        own = [it for it in found if crate_of(it) == crate_of(path)]
        named = [it for it in found if re.search(rf"\buse {crate_of(it)}::[^;]*\b{name}\b", read(path))]
        if len(own or named) > 1:
            raise declarations.Unreadable(f"{path.relative_to(TOP)}: {name} is a type of more than one file")
        return (own or named or [None])[0]

    def types_named(self, text, path):
        """The types and traits of this repository that a piece of a file of code names: of each its file and its name."""
        names = set(TYPE.findall(re.sub(r"//.*", "", text)))
        return {(place, it) for it in names for place in [self.place_of_type(it, path)] if place}

    def item(self, path, name):
        """A type or a trait in code, with what contracts see in its place, if that is said."""
        text = read(path)
        parts = [declarations.whole_item(text, ITEM.format(name), name, path.relative_to(TOP))]
        model = rf"impl(<.*>)? Model for {name}\b"
        if re.search(rf"^{model}", text, re.M):
            parts.append(declarations.whole_item(text, model, f"the model of {name}", path.relative_to(TOP)))
        return parts

    def types(self, places):
        """The texts of types in code that aren't shown yet, and of those that they name, by file; and the words that all these cite.
        What contracts see in the place of a type stands for its fields."""
        left, texts, cited = sorted(places), {}, set()
        while left:
            path, name = left.pop()
            if (path, name) in self.shown:
                continue
            self.shown.add((path, name))
            item = self.item(path, name)
            texts.setdefault(path, []).append("\n\n".join(item))
            cited |= self.cited_by("\n".join(item), path)
            left += sorted(self.types_named(item[0], path)) if len(item) == 1 else []
        return texts, cited

    def contracts(self, statement):
        """The contracts of a statement by file, the words that they cite, and the types in code that they name."""
        parts, cited, types = [], set(), set()
        for file, functions in statement.files.items():
            path = TOP / "crates" / file
            text = read(path)
            found = [declarations.contract(text, it, path.relative_to(TOP)) for it in functions]
            cited |= set().union(*(self.cited_by(it, path) for it in found))
            types |= set().union(*(self.types_named(it, path) for it in found))
            parts += [heading(path), "\n".join(re.findall(r"^(?:ghost |pub )?use [^;]*;", text, re.M)), *found]
        return parts, cited, types

    def rest_on(self, cited, places):
        """All words and the texts of all types, by file, on which these rest and that aren't shown yet."""
        keys, texts = [], {}
        while cited or places:
            found, more = self.closure(cited)
            keys += [key for key in found if key not in self.shown]
            self.shown.update(found)
            fresh, cited = self.types({*places, *more})
            for path, some in fresh.items():
                texts.setdefault(path, []).extend(some)
            cited, places = {it for it in cited if self.resolve(it) not in {*self.shown, None}}, set()
        return keys, texts

    def section(self, statement):
        """The text of a statement: its contracts, and on what they rest that no section before it has."""
        parts, cited, places = self.contracts(statement)
        for file, name in statement.types_alone:
            path = TOP / "crates" / file
            item = self.item(path, name)
            parts += [heading(path), *item]
            cited |= self.cited_by("\n".join(item), path)
            self.shown.add((path, name))
        parts += self.definitions(statement.alone)
        self.shown.update(statement.alone)
        if statement.roots:
            self.later = cited, places
            cited, places = set(statement.roots), set()
        else:
            cited, places = cited | self.later[0], places | self.later[1]
        keys, texts = self.rest_on(cited, places)
        parts += self.definitions(keys)
        for path, some in sorted(texts.items()):
            parts += [heading(path), *sorted(some)]
        return f"## {statement.title}\n\n{statement.front}" + "\n\n".join(parts) + "\n"


def crate_of(path):
    return path.relative_to(TOP / "crates").parts[0]


def declared_place(crate, file):
    """The file and the name of a type that a definition cites as `declared.MODULE.TYPE`, or of which it cites a variant."""
    *module, name = [it for it in file.split(".")[1:] if it != "TheVariants"]
    return (TOP / "crates" / crate / "src" / "/".join(module)).with_suffix(".rt"), name


def told(stated):
    printer = Printer()
    text = "\n".join(printer.section(it) for it in stated)
    return Told(text, printer.cited_in_kit)
