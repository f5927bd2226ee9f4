"""Runs asm2elf and binutils."""
import glob
import os
import sys
import tempfile
from dataclasses import dataclass
from functools import lru_cache
from typing import Iterable, Optional, Sequence

from suygapid import TOOLS, results
from suygapid.cc.compilers import ran
from suygapid.kept import bytecode

BINUTILS = os.environ.get("SFI_BINUTILS", "riscv64-unknown-elf-")  # what the names of as, ar, ld begin with
# Python keeps what it compiles of the modules, which takes longer than to rewrite a small file, and looks for no other packages.
ASM2ELF = [sys.executable, "-S", f"-EXpycache_prefix={bytecode()}", os.path.join(TOOLS, "asm2elf")]
CONVERTER = ("suygapid/commands/asm2elf.py", "suygapid/passes/*.py")
AS = ["-march=rv32imc", "-mabi=ilp32", "-mno-relax", "-mno-arch-attr"]


def binutil(name: str) -> str:
    return BINUTILS + name


def assembled(text: bytes, output: str) -> bytes:
    """Assembles a text to an object file; what `as` says."""
    return ran([binutil("as"), *AS, "-o", output, "-"], text)[1]


def assembled_file(path: str, output: str) -> bytes:
    """The same of a text in a file."""
    return assembled(content_of(path), output)


@dataclass(frozen=True)
class Target:
    """What code is made for: a format, whether the program can be moved, and whether it stops where masks change something."""
    format: str
    is_movable: bool = False
    is_checking: bool = False

    def words(self) -> list[str]:
        """The options of asm2elf."""
        return [f"--format={self.format}", *["--movable"] * self.is_movable, *["--debug"] * self.is_checking]


def files_of(patterns: Iterable[str]) -> list[str]:
    """The files below tools/ that these patterns name, in the order of their paths, without those that aren't installed."""
    found = sorted(path for pattern in patterns for path in glob.glob(os.path.join(TOOLS, pattern)))
    return [path for path in found if not os.path.basename(path).startswith(("test_", "random_c"))]


def texts_of(patterns: Iterable[str]) -> list[str]:
    """The texts of the files below tools/ that these patterns name, in the order of their paths."""
    found = []
    for path in files_of(patterns):
        with open(path, encoding="utf-8") as file:
            found.append(file.read())
    return found


@lru_cache(maxsize=None)
def converter() -> bytes:
    """The files that asm2elf is."""
    return "\0".join(texts_of(CONVERTER)).encode()


def rewritten(assembly: str, target: Target) -> bytes:
    """The GNU assembly of a compiler's, or as it was kept."""
    return rewritten_each([assembly], target)[0]


def rewritten_each(assemblies: Sequence[str], target: Target, passes: Optional[str] = None, jobs: int = 1, is_kept: bool = True) -> list[bytes]:
    """The GNU assembly of several files, which have names of their own, by one run with so many processes, or as it was kept."""
    words = [*target.words(), *([] if passes is None else [f"--passes={passes}"])]
    places = {path: results.place_of([converter(), *map(str.encode, words), content_of(path)]) for path in assemblies if is_kept}
    read = ((path, results.read(place)) for path, place in places.items())
    found = {path: text for path, text in read if text is not None}
    missing = [path for path in assemblies if path not in found]
    with tempfile.TemporaryDirectory() as folder:
        for path, output in zip(missing, run_converter(folder, missing, [*words, f"--jobs={jobs}"])):
            text = found[path] = content_of(output)
            if is_kept:
                results.write(places[path], text)
    return [found[path] for path in assemblies]


def content_of(path: str) -> bytes:
    with open(path, "rb") as file:
        return file.read()


def run_converter(folder: str, assemblies: Sequence[str], words: Sequence[str]) -> list[str]:
    """Runs asm2elf with these options on files that have names of their own, if there are any; the paths of what it made, in a folder."""
    if assemblies:
        ran([*ASM2ELF, *words, f"--into={folder}", *assemblies])
    return [os.path.join(folder, os.path.basename(path)) for path in assemblies]


def rewritten_into(folder: str, assemblies: Sequence[str], target: Target) -> list[str]:
    """The paths of the GNU assembly of several files, which have names of their own, in a folder."""
    return run_converter(folder, assemblies, [*target.words(), "--jobs=1"])


def archived(output: str, objects: Iterable[str]) -> None:
    if os.path.exists(output):
        os.remove(output)
    ran([binutil("ar"), "rcs", output, *objects])


def addresses_told(path: str, addresses: Iterable[int]) -> list[str]:
    """What addr2line says of the line of each address in a linked program."""
    words = [binutil("addr2line"), "-e", path]
    return ran(words, "".join(f"{address:#x}\n" for address in addresses).encode())[0].decode("utf-8", "replace").splitlines()
