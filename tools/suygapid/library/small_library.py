"""The small C library, examples/c/library over the gates, with its headers: a program that asks for one of these, or calls one
of its functions, has it where no other library is named."""
import glob
import os
import re
import shutil

from suygapid import TOP
from suygapid.cc.compilers import HOSTED, WITH_FRAMES, compiled, key_of
from suygapid.kept import kept

SOURCES = os.path.join(TOP, "examples", "c", "library")
HEADERS = os.path.join(TOP, "examples", "c", "include")
GATES = os.path.join(TOP, "examples", "c", "gates.h")
MARK = "small-library-of-sfi-cc"  # a file that says what the folder is
HEAP = 49152  # bytes at least; with the stack of 8192 and 8192 of other data they make a region of 65536
WORD = re.compile(rb"\w+")
MISSING = re.compile(rb":\d+: [^:\n]+: '?([\w/]+\.h)'?[: ]")  # a header that a compiler doesn't find
# What newlib has of the C standard and beside it, and names that the small library's headers haven't.
OF_NEWLIB = {f"{name}.h".encode() for name in """assert complex ctype errno inttypes limits locale math regex search setjmp signal
                                                 stdio stdlib string strings tgmath time unistd wchar wctype""".split()}
NOT_HERE = {b"FILE", b"stdin", b"stdout", b"stderr", b"errno"}


def headers() -> list[str]:
    return sorted(glob.glob(os.path.join(HEADERS, "*.h")))


def functions() -> set[bytes]:
    """What stands before a bracket in the headers, and so the library's functions."""
    texts = []
    for path in headers():
        with open(path, "rb") as file:
            texts.append(file.read())
    return set(re.findall(rb"\b(\w+)\(", b"".join(texts)))


def is_asked_for(told: bytes) -> bool:
    """Whether what a compiler complained of is that it doesn't find one of the headers."""
    return bool({os.path.basename(path).encode() for path in headers()} & set(MISSING.findall(told)))


def is_called(told: bytes) -> bool:
    """Whether what the linker complained of speaks of one of the functions."""
    return bool(functions() & set(WORD.findall(told)))


def speaks_of_others(told: bytes) -> bool:
    """Whether what a compiler complained of speaks of what stdio.h hasn't here."""
    return bool(NOT_HERE & set(WORD.findall(told)))


def advice(told: bytes, is_too_small: bool = False) -> bytes:
    """A line that names newlib, where a header isn't there that newlib has, or where this library hasn't what is missing."""
    missing = next((name.decode() for name in MISSING.findall(told) if name in OF_NEWLIB), None)
    if missing is None and is_too_small:
        missing = "the small library was taken"
    return f"sfi-cc: {missing}: try --library newlib, a whole C library\n".encode() if missing else b""


def make(compiler: str, folder: str) -> None:
    """Fills a folder with the library's assembly and its headers."""
    shutil.copytree(HEADERS, os.path.join(folder, "include"))
    for path in sorted(glob.glob(os.path.join(SOURCES, "*.c"))):
        room = os.path.join(folder, "room")
        assembly, _ = compiled(compiler, [HOSTED, "-w", WITH_FRAMES, "-isystem", HEADERS], path, room)
        os.rename(assembly, os.path.join(folder, os.path.basename(assembly)))
        shutil.rmtree(room)
    with open(os.path.join(folder, MARK), "w", encoding="utf-8"):
        pass


def folder_of(compiler: str) -> str:
    """The folder of the library by a compiler, which is kept."""
    words = [*key_of(compiler), MARK, WITH_FRAMES]
    for path in [*headers(), *sorted(glob.glob(os.path.join(SOURCES, "*"))), GATES]:
        with open(path, encoding="utf-8") as file:
            words += [os.path.basename(path), file.read()]
    return kept("small", words, lambda folder: make(compiler, folder))
