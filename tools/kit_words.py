"""Finds the definitions of the toolchain's words, as `slice_index` of `Rattle.std.specs.Prelude`, in the sources that it brings."""
import hashlib
import json
import pathlib
import re
import shutil
import subprocess
from dataclasses import dataclass

import declarations

PASSED_ON = re.compile(r"^(?:unfoldable )?pub use ([\w.]+)\.\{([^}]*)\}", re.M)
PASSED_WHOLE = re.compile(r"^pub use ([\w.]+)$", re.M)


@dataclass
class Place:
    """Where a word is declared: its module, its name there, and its file, which is None where there is no source."""
    module: str
    name: str
    file: pathlib.Path = None


def folder():
    """The toolchain's folder of sources, or None where there is no command rt."""
    if not shutil.which("rt"):
        return None
    page = subprocess.run(["rt", "doc"], capture_output=True, text=True, check=True).stdout.strip()
    return pathlib.Path(page).parent / "rattle"


def mounted(top, library):
    """The folder of a library of the program logic, or None."""
    project = top / "logic" / "antt-project.json"
    mounts = json.loads(project.read_text(encoding="utf-8"))["mounts"]
    if library not in mounts:
        return None
    place = (project.parent / mounts[library]).resolve()
    own = json.loads((place / "antt-project.json").read_text(encoding="utf-8")) if (place / "antt-project.json").is_file() else {}
    return place / own.get("src", "src" if (place / "src").is_dir() else ".")


def file_of(top, module):
    """The source of a module, or None: those of the prover itself have none."""
    library, *parts = module.split(".")
    if library == "Rattle":
        place, parts = top / parts[0], parts[1:]
    else:
        place = mounted(top, library)
    file = place.joinpath(*parts).with_suffix(".antt") if place and parts else None
    return file if file and file.is_file() else None


def module_of(top, module):
    """A module, or the one that stands for it: `Rattle.std.specs.List` is `Rattle.core.specs.List`."""
    above, _, name = module.rpartition(".")
    facade = file_of(top, f"{above}.Lib")
    if file_of(top, module) or not facade:
        return module
    return next((it for it in PASSED_WHOLE.findall(facade.read_text(encoding="utf-8")) if it.endswith(f".{name}")), module)


def place_of(top, module, name):
    """Where a word is declared that a module has or passes on."""
    module = module_of(top, module)
    file = file_of(top, module)
    for other, names in PASSED_ON.findall(file.read_text(encoding="utf-8")) if file else ():
        for one in names.split(","):
            original, _, here = one.strip().partition(" as ")
            if (here or original) == name:
                return place_of(top, other, original)
    return Place(module, name, file)


def head_of(lines, name):
    """The index of the line that declares a word, or the type whose constructor it is; None where none is found."""
    head = re.compile(rf" *(?:(?:abbrev|unfoldable|opaque|pub) )*(?:record |data )?{re.escape(name)}(?= |$|:)(?!.* = )")
    declared_at, inside = None, None
    for index, line in enumerate(lines):
        if re.match(r" *(?:pub )?data ", line):
            inside = index
        elif inside is not None and line.strip() and margin_of(line) <= margin_of(lines[inside]):
            inside = None
        if inside is not None and inside != index:
            if name in line.partition(" : ")[0].split():
                return inside
        elif declared_at is None and head.match(line) and (":" in line or line.endswith("where")):
            declared_at = index
    return declared_at


def margin_of(line):
    return len(line) - len(line.lstrip(" "))


def declared(text, name):
    """The text of a declaration, with the comment above it: all lines to the next that is of no deeper margin and no equation."""
    lines = text.split("\n")
    head = head_of(lines, name)
    if head is None:
        return None
    margin = margin_of(lines[head])
    first = end = head
    while first and lines[first - 1].startswith(" " * margin + "-- "):
        first -= 1
    for index in range(head + 1, len(lines)):
        line = lines[index].rstrip()
        if line and not (margin_of(line) == margin and line.lstrip().startswith("--")):
            goes_on = declarations.is_equation(line, name) or re.match(r" *(unfolding\b|[})])", line)
            if margin_of(line) < margin or margin_of(line) == margin and not goes_on:
                break
            end = index
    return "\n".join(lines[first:end + 1])


def source_of(top, place):
    """The file of a word and its text there, or None: of a type in code, `declared`, that is its item."""
    code = re.fullmatch(r"Rattle\.(\w+)\.specs\.declared\.([\w.]+)\.(\w+)", place.module.removesuffix(".TheVariants"))
    if code:
        file = top / code[1] / "src" / (code[2].replace(".", "/") + ".rt")
        if not file.is_file():
            return None
        text = file.read_text(encoding="utf-8")
        return file, declarations.whole_item(text, rf"pub (enum|struct) {code[3]}\b", code[3], file)
    text = declared(place.file.read_text(encoding="utf-8"), place.name) if place.file else None
    return (place.file, text) if text else None


def told(top, words):
    """A text of these words, each a module and a name: of each file its hash, and each declaration; last those of no file
    there, as the prover's own."""
    files, without = {}, []
    for module, name in sorted(words):
        place = place_of(top, module, name)
        found = source_of(top, place)
        if not found:
            without.append(f"{name}: {place.module}")
        elif found[1] not in files.setdefault(found[0], []):
            files[found[0]].append(found[1])
    parts = []
    for file, texts in sorted(files.items()):
        parts += [f"### {file.relative_to(top)} sha256={hashlib.sha256(file.read_bytes()).hexdigest()}", *texts]
    return "\n\n".join([*parts, "### of no file there", "\n".join(without)]) + "\n"
