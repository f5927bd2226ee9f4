"""The signatures of the functions that a host knows by their names, as docs/IMAGE.md has them, from the compiler's debug
information. A source that has such functions is compiled once more for that, unoptimized: the code that becomes part of a
program is what it would be without."""
import os
import re
from typing import Iterable

from suygapid.cc import debug_entries as debug
from suygapid.cc.compilers import PLUS_PLUS_SOURCES, SOURCES, Failed, object_of

# By its size, and whether it has a sign; a floating-point number by its size.
INTEGERS = {(1, True): "y", (2, True): "h", (4, True): "i", (8, True): "l", (1, False): "c", (2, False): "k", (4, False): "u", (8, False): "m"}
TRUTHS = {1: "t"}
OF_ANY_WIDTH = "_BitInt"  # in a base type's name, which keeps the width to itself: such a type has no letter
FLOATS = {4: "f", 8: "d"}
BOOLEAN, FLOAT, SIGNED, SIGNED_CHAR, UNSIGNED, UNSIGNED_CHAR, CHARACTER = 2, 4, 5, 6, 7, 8, 16  # encodings of base types
POINTERS = (debug.POINTER, debug.REFERENCE, debug.RVALUE)
QUALIFIERS = (debug.CONST, debug.VOLATILE, debug.RESTRICT, debug.ATOMIC)
C_LANGUAGES = (0x01, 0x02, 0x0c, 0x1d, 0x2c)
PAIRS = {("sfi_bytes", "sfi_bytes_size"): "b", ("sfi_buffer", "sfi_buffer_size"): "w"}  # types of gates.h
TEXT, POINTER, VOID = "s", "p", "v"
IN_TWO_WORDS, MOST_WORDS = "lmdbw", 8
MARKED = re.compile(r"^\s*\.protected\s+(\w+)", re.MULTILINE)
DEFINED = re.compile(r"^(\w+):", re.MULTILINE)
ASKED = "__sfi_type_"  # begins the name of a variable that points to an import's type: of a function that is only declared
ASKING = "__typeof__({name}) *{asked}{name};\n"  # without it clang 14 tells of none at -O0, and then of those that are called
WITH_DEBUG = ["-g2", "-gdwarf-4", "-w"]
PREPROCESSED = {".i": ".c", ".ii": ".cc"}  # what another source includes is preprocessed again
LEFT_OUT = ("-g", "-M", "-save-temps", "-fdump-")  # begin options of no use here, or that write files of the user's
WITH_FILE = ("-MF", "-MT", "-MQ")
SYMBOL = "\t.weak __sfi_signature_{parameters}_{result}_{name}\n\t.set __sfi_signature_{parameters}_{result}_{name}, 1\n"


class Functions:
    """The functions of a source, as its debug information has them."""

    def __init__(self, content):
        self.entries = debug.Entries(content)
        self.is_c = self.entries.unit.values.get(debug.LANGUAGE) in C_LANGUAGES

    def signatures(self):
        """By its name, what becomes of each function that is defined, and of each that is asked for."""
        found, rest = {}, list(self.entries.unit.children)
        while rest:
            entry = rest.pop()
            if entry.kind == debug.NAMESPACE:
                rest += entry.children
            elif entry.kind == debug.SUBPROGRAM and debug.DECLARED not in entry.values:
                found[self.symbol(entry)] = self.signature(self.origin(entry))
            elif entry.kind == debug.VARIABLE and str(entry.values.get(debug.NAME)).startswith(ASKED):
                pointed = self.bare(self.entries.of(self.bare(self.entries.of(entry, debug.TYPE)), debug.TYPE))
                found[entry.values[debug.NAME][len(ASKED):]] = self.signature(pointed)
        return {name: signature for name, signature in found.items() if name and signature}

    def origin(self, entry):
        """The entry that says what a function is, where another speaks of its code alone."""
        for attribute in (debug.ORIGIN, debug.SPECIFICATION):
            if attribute in entry.values:
                return self.origin(self.entries.of(entry, attribute))
        return entry

    def symbol(self, entry):
        """The name that the linker knows, None of a function of this source alone."""
        entry = self.origin(entry)
        if debug.EXTERNAL not in entry.values:
            return None
        return entry.values.get(debug.LINKAGE_NAME, entry.values.get(debug.NAME))

    def signature(self, function):
        """The letters of the parameters, and the result's. None of a function that has no signature: with other values, a variable
        number of them, or so many that they don't all go into registers."""
        parts = [part for part in function.children if part.kind in (debug.PARAMETER, debug.MORE_PARAMETERS)]
        if any(part.kind == debug.MORE_PARAMETERS for part in parts) or parts and self.is_c and debug.PROTOTYPED not in function.values:
            return None
        letters = self.parameters([self.entries.of(part, debug.TYPE) for part in parts])
        result = self.letter(self.entries.of(function, debug.TYPE))
        if None in letters or result is None or sum(1 + (letter in IN_TWO_WORDS) for letter in letters) > MOST_WORDS:
            return None
        return "".join(letters), result

    def parameters(self, types):
        found, rest = [], list(types)
        while rest:
            pair = tuple(it.values.get(debug.NAME) if it and it.kind == debug.TYPEDEF else None for it in rest[:2])
            found.append(PAIRS.get(pair) or self.letter(rest[0]))
            rest = rest[2 if pair in PAIRS else 1:]
        return found

    # Types.

    def layers(self, entry):
        """The names and qualifiers of a type, from the outermost on, and last the type itself, None of void."""
        found = [entry]
        while found[-1] and found[-1].kind in (debug.TYPEDEF, *QUALIFIERS):
            found.append(self.entries.of(found[-1], debug.TYPE))
        return found

    def bare(self, entry):
        """A type without its names and qualifiers."""
        return self.layers(entry)[-1]

    def letter(self, entry):
        """The letter of a type, None of one that has none."""
        entry = self.bare(entry)
        if entry is None:
            return VOID
        if entry.kind in POINTERS:
            return TEXT if entry.kind == debug.POINTER and self.is_text(self.entries.of(entry, debug.TYPE)) else POINTER
        if entry.kind == debug.ENUMERATION:
            return self.enumeration(entry)
        return self.number(entry) if entry.kind == debug.BASE else None

    def is_text(self, entry):
        """Whether these are characters that are read alone."""
        *outer, last = self.layers(entry)
        qualifiers = {layer.kind for layer in outer} - {debug.TYPEDEF}
        return bool(last) and last.kind == debug.BASE and last.values.get(debug.NAME) == "char" and qualifiers == {debug.CONST}

    def enumeration(self, entry):
        if debug.TYPE in entry.values:
            return self.letter(self.entries.of(entry, debug.TYPE))
        is_signed = any(child.values.get(debug.CONSTANT, 0) < 0 for child in entry.children)
        return INTEGERS.get((entry.values.get(debug.SIZE), is_signed))

    @staticmethod
    def number(entry):
        size, encoding = entry.values.get(debug.SIZE), entry.values.get(debug.ENCODING)
        if OF_ANY_WIDTH in str(entry.values.get(debug.NAME)):
            return None
        if encoding == FLOAT:
            return FLOATS.get(size)
        if encoding == BOOLEAN:
            return TRUTHS.get(size)
        if encoding in (SIGNED, SIGNED_CHAR, UNSIGNED, UNSIGNED_CHAR, CHARACTER):
            return INTEGERS.get((size, encoding in (SIGNED, SIGNED_CHAR)))
        return None


def wanted(assembly, exports, imports):
    """Of a source whose assembly is given, the functions that it defines for a host, and the imports that it calls: those that
    it marks, and those of the names in two lists."""
    defined, marked = set(DEFINED.findall(assembly)), MARKED.findall(assembly)
    spoken = [name for name in imports if re.search(rf"\b{name}\b", assembly)]
    return ([name for name in dict.fromkeys([*marked, *exports]) if name in defined],
            [name for name in dict.fromkeys([*marked, *spoken]) if name not in defined])


def without_files(words):
    """The compiler's options that say what a source means."""
    return [word for before, word in zip(["", *words], words) if not word.startswith(LEFT_OUT) and before not in WITH_FILE]


def debug_object(compiler, given, file, place, more):
    """The bytes of the object that a compiler makes of a source and some lines after it, with debug information."""
    suffix = os.path.splitext(file)[1]
    asking, output = place + PREPROCESSED.get(suffix, suffix), place + ".o"
    with open(asking, "w", encoding="utf-8", errors="surrogateescape") as text:
        text.write(f'#include "{os.path.abspath(file)}"\n{more}')
    object_of(compiler, [*without_files(given), *WITH_DEBUG], asking, output)
    with open(output, "rb") as made:
        return made.read()


def signatures_of(compiler, given, file, place, imports):
    """The signatures of a source's functions, and of imports. Where it can't be compiled unoptimized, or an import isn't declared
    for the whole file, the next way is tried."""
    asking = "".join(ASKING.format(name=name, asked=ASKED) for name in imports)
    for level, more in ((["-O0"], asking), ([], asking), ([], "")):
        try:
            return Functions(debug_object(compiler, [*given, *level], file, place, more)).signatures()
        except (Failed, debug.Unknown, OSError):
            pass
    return {}


def lines_of(compiler: str, given: Iterable[str], file: str, assembly: str, names: tuple[list[str], list[str]]) -> bytes:
    """GNU assembly with a symbol for each signature, which image/names.py finds in the object. `names` are lists of exports and
    imports beside those that the source marks."""
    if not file.endswith((*SOURCES, *PLUS_PLUS_SOURCES)):
        return b""
    with open(assembly, encoding="utf-8", errors="surrogateescape") as text:
        exports, imports = wanted(text.read(), *names)
    if not exports and not imports:
        return b""
    found = signatures_of(compiler, given, file, assembly + ".signatures", imports)
    return "".join(SYMBOL.format(name=name, parameters=found[name][0], result=found[name][1])
                   for name in (*exports, *imports) if name in found).encode()
