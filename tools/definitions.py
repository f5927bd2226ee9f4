#!/usr/bin/env python3
"""Makes docs/DEFINITIONS.md, the number of must-fail edits in docs/PROOFS.md and those of lines in documents, and compares
them with the files.

    tools/definitions.py             # compares, and prints a line for each difference and last `N passed, M failed`
    tools/definitions.py --write     # writes them
    tools/definitions.py CRATE ..    # prints each word of these crates: its line, its comment, and one that cites it

A word is a definition in a crate's specs/, but for specs/private, which private contracts alone cite, and specs/mirror. The
page has the files of the words that a public contract cites (that of a `pub fn`, of a `pub trait`, or an impl's ghost items),
or a law in proofs/Facts, and of those by which these are defined. tools/sources.txt has the public source of a file.

It also compares: that no definition outside specs/private imports a word from there, that each contract in
docs/PROOFS.md is one of its crate, and in documents each `PATH` (N), PATH being a file below crates/ of N lines (a name
without a folder, such as `Runs` (86), goes on with the folder of the path before it); and that the files are there which
CONTRIBUTING.md and the heads of src/lib.rt name.
"""
import pathlib
import re
import sys
from dataclasses import dataclass, field

sys.dont_write_bytecode = True
import declarations

TOP = pathlib.Path(__file__).resolve().parent.parent
CRATES = TOP / "crates"
PROOFS = TOP / "docs" / "PROOFS.md"
NAME = re.compile(r"[A-Za-z_][A-Za-z_0-9]*")
IMPORT = re.compile(r"use Rattle\.(\w+)\.specs\.([\w.]+)\.\{([^}]*)\}")
WHOLE = re.compile(r"use Rattle\.(\w+)\.specs\.([\w.]+) as (\w+)")
NOT_LISTED = ("private", "mirror", "declared")
HEAD = """# Definitions

A contract is as good as the definitions that it cites. Here are their files, lowest crate first, with the public source; a
file without one is this project's own. `tools/definitions.py CRATE ..` prints the words on which public contracts rest, each
with its comment and one that cites it. [PROOFS.md](PROOFS.md) has the laws. Words that private contracts alone cite are in
`specs/private`; `specs/mirror` of `rv_comp` repeats the code. `tools/definitions.py --write` makes this page.

**ISA** is the RISC-V Instruction Set Manual, Volume I: Unprivileged ISA, and **psABI** the RISC-V ABIs Specification.
**Wahbe** is Wahbe, Lucco, Anderson and Graham, "Efficient Software-Based Fault Isolation", SOSP 1993. **Yee** is Yee and
others, "Native Client: A Sandbox for Portable, Untrusted x86 Native Code", IEEE S&P 2009. **SDM** is the Intel 64 and
IA-32 Architectures Software Developer's Manual.
"""


@dataclass
class Word:
    """A definition: its crate, file and name, the keys of the words by which it is defined, its comment and its line."""
    key: tuple
    names: set = field(default_factory=set)
    comment: str = ""
    line: int = 0


# ---- definitions

def imports(text):
    """What a text imports: by its name here, the crate, file and name of each word."""
    found = {}
    for crate, file, names in IMPORT.findall(text):
        for name in filter(None, (part.strip() for part in names.split(","))):
            original, _, here = name.partition(" as ")
            found[here or original] = (crate, file, original)
    return found


def qualified(text, body):
    """The words that a part of a text cites by the name which the text gives to their whole file: `words.Word`."""
    files = {name: (crate, file) for crate, file, name in WHOLE.findall(text)}
    return {(*files[name], word) for name, word in re.findall(r"\b(\w+)\.([^\s(){}.,;]+)", body) if name in files}


def constructors(lines):
    """The constructors of a data type, and what else stands before a colon, or in a line without one."""
    return {name for line in lines[1:] for name in line.partition(":")[0].split()}


def cited_of(known, text):
    """Those of the known names that a text cites, or that a field or a variable in it has: one that isn't of letters alone,
    such as the operator `◌⟦◌∶◌⟧`, where each part of it stands there."""
    used = set(NAME.findall(text))
    return {name for name in known if name in used
            or not NAME.fullmatch(name) and all(part in text for part in name.split("◌"))}


def words_of(crate, file, text):
    """The words of a file of definitions, by each name that others may import: a type's constructors stand for the type."""
    found, others, texts = {}, {}, {}
    whole = declarations.read(text, path_of(crate, file).relative_to(TOP))
    for it in whole.declarations:
        found[it.name] = word = Word((crate, file, it.name), comment=it.comment, line=it.line)
        texts[it.name] = word, "\n".join(it.code)
        others.update({one: word for one in (constructors(it.code) if it.kind == "data " else ())})
    found = others | found
    lines = "\n".join(whole.imports)
    known = imports(lines)
    for word, body in texts.values():
        word.names = {known[name] for name in cited_of(known, body)} | qualified(lines, body)
        word.names |= {found[name].key for name in cited_of(found, body)} - {word.key}
    return found


def passed_on(crate, file, text):
    """The words that a file passes on: the name that others import from it, and that of the word itself."""
    lines = "\n".join(line for line in text.splitlines() if line.startswith("pub use "))
    return {(crate, file, name): key for name, key in imports(lines).items()}


def variants(words):
    """The constructors of data types, as a file names them that imports the type itself as a module."""
    return {(crate, f"{file}.{word.key[2]}", name): word for (crate, file, name), word in words.items() if name != word.key[2]}


def all_words():
    """Each word, by its crate, its file and each of its names."""
    found, others = {}, {}
    for path in sorted(CRATES.glob("*/specs/**/*.antt")):
        crate, _, *parts = path.relative_to(CRATES).with_suffix("").parts
        file = ".".join(parts)
        text = path.read_text(encoding="utf-8")
        found.update({(crate, file, name): word for name, word in words_of(crate, file, text).items()})
        others.update(passed_on(crate, file, text))
    return found | variants(found) | {name: found[key] for name, key in others.items() if key in found}


# ---- what contracts rest on

def clauses(text):
    """The parts of a file of code in which a public contract may cite a word."""
    text = re.sub(r"//.*|^ *ghost use .*", "", text, flags=re.M)
    traits = re.findall(r"^pub trait .*?^\}", text, flags=re.M | re.S)
    ghosts = re.findall(r"^ +ghost \w+ = .*?;$", text, flags=re.M | re.S)
    return "\n".join(heads(text) + traits + ghosts)


def heads(text):
    """The heads of the `pub fn`s, each with its clauses: up to its body."""
    found, inside = [], False
    for line in text.splitlines():
        inside = inside or re.match(r" *pub (extern \"C\" )?fn ", line)
        if inside:
            found.append(line)
        is_body = line.strip() in ("{", "{}") or line.endswith("{") and line.lstrip().startswith(("pub", ")"))
        inside = inside and not is_body
    return found


def laws(text):
    """The laws of a crate's proofs/Facts, each with the words of specs/ that its type cites."""
    known = imports(text)
    typed = re.findall(r"^pub (\w+) : (.+)$", text, flags=re.M)
    return {law: {known[name] for name in cited_of(known, type_)} for law, type_ in typed}


def facts_of(crate):
    """The text of a crate's proofs/Facts, if it has that file."""
    path = CRATES / crate / "proofs" / "Facts.antt"
    return path.read_text(encoding="utf-8") if path.exists() else ""


def cited(words):
    """Each word that a public contract or a law cites, and the file that does."""
    found = {}
    for path in sorted(CRATES.glob("*/src/**/*.rt")):
        if {"tests", "tests.rt"} & set(path.relative_to(CRATES).parts):
            continue
        text = path.read_text(encoding="utf-8")
        known = imports(text)
        named = {known[name] for name in cited_of(known, clauses(text))} | qualified(text, clauses(text))
        for name in named & words.keys():
            found.setdefault(words[name].key, str(path.relative_to(CRATES)))
    for crate in crate_names():
        for name in set().union(*laws(facts_of(crate)).values()) & words.keys():
            found.setdefault(words[name].key, f"{crate}/proofs/Facts.antt")
    return found


def wanted(words):
    """Each word on which public contracts rest, and what cites it."""
    found = {key: why for key, why in cited(words).items() if not key[1].startswith(NOT_LISTED)}
    left, seen = list(found), set(found)
    while left:
        key = left.pop()
        for other in sorted(words[name].key for name in words[key].names if name in words):
            if other[:2] != key[:2]:
                found.setdefault(other, " ".join(key))
            if other not in seen:
                seen.add(other)
                left.append(other)
    return {key: why for key, why in found.items() if not key[1].startswith(NOT_LISTED)}


def imports_of_private(name, text):
    """A line for each import from specs/private in a file of definitions that isn't there itself."""
    if "/specs/private" in name:
        return []
    found = re.findall(r"^[a-z ]*\buse Rattle\.\w+\.specs\.private\b.*", text, flags=re.M)
    return [f"{name} imports from specs/private: {line}" for line in found]


def compared_imports():
    """How many files of definitions outside specs/private import nothing from there, and a line for each import."""
    files = {str(path.relative_to(TOP)): path for path in sorted(CRATES.glob("*/specs/**/*.antt"))}
    faults = {name: imports_of_private(name, path.read_text(encoding="utf-8")) for name, path in files.items()}
    return sum("/specs/private" not in name and not found for name, found in faults.items()), sum(faults.values(), [])


# ---- the page

def path_of(crate, file):
    """The path of a file of definitions."""
    return (CRATES / crate / "specs" / file.replace(".", "/")).with_suffix(".antt")


def crate_names():
    """The crates, lowest first."""
    lines = (TOP / "crates.txt").read_text(encoding="utf-8").splitlines()
    return [re.match(r"\w+", line)[0] for line in lines if line and not line.startswith("#")]


def sources(text):
    """The public source of each file that has one."""
    lines = [line.partition(": ") for line in text.splitlines() if not line.startswith("#")]
    return {tuple(file.split()): source for file, _, source in lines}


def line_of_file(file, source):
    """The page's line for a file: its link, and its source."""
    link = f"[{file[1].replace('.', '/')}](../{path_of(*file).relative_to(TOP)})"
    return f"{link} ({source})" if source else link


def page(words, source_of):
    """The text of docs/DEFINITIONS.md."""
    needed = sorted(wanted(words), key=lambda key: (key[:2], words[key].line))
    text = [HEAD]
    for crate in crate_names():
        files = list(dict.fromkeys(key[:2] for key in needed if key[0] == crate and key[1] != "Laws"))
        lines = [line_of_file(file, source_of.get(file)) for file in files]
        text += [f"\n**{crate}**:\n" + ",\n".join(lines) + ".\n"] if files else []
    return "".join(text)


def faults_of_sources(words, source_of):
    """A line for each source of a file that the page doesn't have."""
    files = {key[:2] for key in wanted(words)}
    return [f"tools/sources.txt: no contract rests on {crate} {file}" for crate, file in sorted(source_of.keys() - files)]


def told(words, crate):
    """A text of a crate's words: of each file its first line, and of each word its line, its comment, and one that cites it."""
    needed, lines = wanted(words), []
    for key in sorted((key for key in needed if key[0] == crate), key=lambda key: (key[1], words[key].line)):
        path = path_of(*key[:2])
        head = f"{path.relative_to(TOP)} {path.read_text(encoding='utf-8').splitlines()[0]}"
        lines += [] if head in lines else [head]
        lines.append(f"    {words[key].line}: {key[2]}: {words[key].comment} [{needed[key]}]")
    return "\n".join(lines)


# ---- docs/PROOFS.md

def with_edits(text):
    """The text with the number of all must-fail edits before `edits in all`."""
    return re.sub(r"\d+(?= edits in all)", str(len(list(CRATES.glob("*/must-fail/*.edit")))), text)


def contract_names(crate):
    """The functions, types, traits and clauses of a crate's code, and its laws."""
    texts = [path.read_text(encoding="utf-8") for path in sorted((CRATES / crate / "src").glob("**/*.rt"))]
    code = re.findall(r"\b(?:fn|ensures|trait|struct|impl|mod)\s+(\w+)", "\n".join(texts))
    return {*code, *laws(facts_of(crate)), "Facts"}


def contracts(text):
    """The contracts in the brackets of the items of a text that begin with one: of each its crate and its name. `[only_]x` names x
    and only_x."""
    found = []
    for section in text.split("\n## ")[1:]:
        crate = section.split(":")[0]
        for item in re.findall(r"^- .*(?:\n  .*)*", section, flags=re.M) if (CRATES / crate).is_dir() else []:
            named = " ".join(re.findall(r"\((`[^()]*)\)", item))
            names = re.sub(r"`\[only_\](\w+)`", r"`\1`, `only_\1`", named)
            found += [(crate, part) for name in re.findall(r"`([\w:]+)`", names) for part in name.split("::")]
    return found


def compared_contracts(text):
    """How many contracts of a text are of their crate, and a line for each that isn't."""
    named = contracts(text)
    known = {crate: contract_names(crate) for crate in {crate for crate, _ in named}}
    faults = [f"docs/PROOFS.md: {name} is nothing of {crate}" for crate, name in named if name not in known[crate]]
    return len(named) - len(faults), faults


# ---- files

def files_in(text):
    """The files of crates that a text names from `specs`, `proofs` or `src` on, without `.antt`."""
    return sorted(set(re.findall(r"\b(?:specs|proofs)/(?:\w+/)*[A-Z][a-z]\w*|\bsrc/(?:\w+/)*\w+\.rt", text)))


def compared_files():
    """How many files that CONTRIBUTING.md and the crates' heads name are in a crate, and a line for each other one."""
    texts = {"CONTRIBUTING.md": (TOP / "CONTRIBUTING.md").read_text(encoding="utf-8")}
    for path in sorted(CRATES.glob("*/src/lib.rt")):
        lines = path.read_text(encoding="utf-8").splitlines(keepends=True)
        texts[path.relative_to(TOP)] = "".join(line for line in lines if line.startswith("//!"))
    named = [(text, file) for text, content in texts.items() for file in files_in(content)]
    faults = [f"{text}: there is no {file}" for text, file in named
              if not any(any(CRATES.glob(f"*/{file}{suffix}")) for suffix in ("", ".antt"))]
    return len(named) - len(faults), faults


# ---- lines

def with_counts(text):
    """The text with the number of lines that each of its files has."""
    folder, suffix = None, ""

    def counted(found):
        nonlocal folder, suffix
        path = pathlib.PurePosixPath(found[2])
        if "/" in found[2]:
            folder, suffix = path.parent, path.suffix
        file = CRATES / folder / path.with_suffix(suffix).name if folder and suffix and path.suffix in ("", suffix) else None
        if file is None:
            return found[0]
        return found[1] + str(len(file.read_text(encoding="utf-8").splitlines()) if file.exists() else "no file")

    return re.sub(r"(`([\w./]+)`\s*\()(\d+)\b", counted, text)


def compared(path, text):
    """A line for each line of a document that isn't as in the text."""
    has = path.read_text(encoding="utf-8").splitlines() if path.exists() else []
    wants = text.splitlines()
    lines = [f"{path.relative_to(TOP)} lacks: {line}" for line in wants if line not in has]
    lines += [f"{path.relative_to(TOP)} has in its place: {line}" for line in has if line not in wants]
    return lines or ([] if has == wants else [f"{path.relative_to(TOP)}: its lines are in another order"])


# ---- itself

SPECS = {
    "A": """use Rattle.c.specs.B.{far}
use Rattle.c.specs.B as whole
-- how near
-- it is
abbrev pub near : ℕ
near = far + part.x
-- how wide
abbrev pub wide : whole.Kind
wide = whole.One
-- other
pub part : ℕ
part = 1
pub other : ℕ
""",
    "B": """unfoldable pub far : ℕ
far = 1
pub data Kind : Type 0 where
  One Two : Kind
""",
}
CODE = """ghost use Rattle.c.specs.A.{near as close, other};
// other
pub fn f() -> u32
    ensures { result ≡ record {
        x = 1;
    } + close }
{
    other
}
"""
ITEMS = """a page

## rv_word: a crate

- what is so (or not)
  (`laws::f`: `only`).
- what else (`g`: `[only_]x`).
"""


def checked_itself():
    """How much of this holds of the definitions and the code above, and a line for each that doesn't."""
    words = {("c", file, name): word for file, text in SPECS.items() for name, word in words_of("c", file, text).items()}
    private = "use Rattle.c.specs.private.B.{far}\npub use Rattle.d.specs.private as p\nuse Rattle.c.specs.B.{far}\n"
    found = {
        "imports": imports(CODE)["close"] == ("c", "A", "near"),
        "clauses": cited_of({"close", "other"}, clauses(CODE)) == {"close"},
        "names": words["c", "A", "near"].names == {("c", "B", "far"), ("c", "A", "part")},
        "qualified": words["c", "A", "wide"].names == {("c", "B", "Kind"), ("c", "B", "One")},
        "other letters": cited_of({"is-so", "f'", "is", "◌⟦◌∶◌⟧"}, "is-so (f' x)") == {"is-so", "f'", "is"},
        "comments": words["c", "A", "near"].comment == "how near it is" and words["c", "A", "near"].line == 5,
        "constructors": words["c", "B", "Two"].key == ("c", "B", "Kind"),
        "sources": sources("# note\na B: C: d\n") == {("a", "B"): "C: d"},
        "laws": laws("use Rattle.c.specs.Laws.{One, Two as Both}\npub one : One\none = it\npub both : (n : ℕ) → Both n\n")
                == {"one": {("c", "Laws", "One")}, "both": {("c", "Laws", "Two")}},
        "contracts": contracts(ITEMS) == [("rv_word", name) for name in ("laws", "f", "only", "g", "x", "only_x")],
        "private": len(imports_of_private("crates/c/specs/A.antt", private)) == 2
                   and not imports_of_private("crates/c/specs/private/A.antt", private),
        "files": files_in("`specs/words/Rules.antt`, src/a/b.rt, specs/private") == ["specs/words/Rules", "src/a/b.rt"],
        "lines": with_counts("`a/specs/X.antt` (3), `Z` and (5)") == "`a/specs/X.antt` (no file), `Z` and (5)",
    }
    return sum(found.values()), [f"tools/definitions.py itself: {name}" for name, holds in found.items() if not holds]


def main(options):
    words = all_words()
    if options and options != ["--write"]:
        print("\n".join(told(words, crate) for crate in options))
        return 0
    source_of = sources((TOP / "tools" / "sources.txt").read_text(encoding="utf-8"))
    texts = {path: with_counts(path.read_text(encoding="utf-8")) for path in [TOP / "README.md", *sorted((TOP / "docs").glob("*.md"))]}
    texts[TOP / "docs" / "DEFINITIONS.md"] = page(words, source_of)
    texts[PROOFS] = with_edits(texts[PROOFS])
    if options:
        for path, text in texts.items():
            path.write_text(text, encoding="utf-8")
    differences = [compared(path, text) for path, text in texts.items()]
    results = [checked_itself(), compared_imports(), compared_contracts(texts[PROOFS]), compared_files()]
    faults = sum([found for _, found in results] + differences, faults_of_sources(words, source_of))
    passed = sum(right for right, _ in results) + sum(not found for found in differences)
    print("\n".join(faults + [f"{passed} passed, {len(faults)} failed"]))
    return 1 if faults else 0


if __name__ == "__main__":
    try:
        sys.exit(main(sys.argv[1:]))
    except declarations.Unreadable as unread:
        sys.exit(f"{unread}\n0 passed, 1 failed")
