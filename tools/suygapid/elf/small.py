"""The compiler's options for small objects and for line numbers, how much small objects take, and how fewer are small."""
import re
from typing import Iterable, Optional

SMALL = 64  # bytes of an object that goes into small data
LIMIT = "-msmall-data-limit="  # begins the compiler's option that says so
ROOM = 1984  # for all of them
SECTION = re.compile(r"^\s*\.section\s+\.s(?:data|bss|rodata)\b", re.MULTILINE)
SIZE = re.compile(r"^\s*\.size\s+\S+,\s*(\d+)$", re.MULTILINE)
OBJECT = re.compile(r"^(\t\.section\t\.)s((?:(?:data|bss|rodata)\.([^\s,]+)|rodata)(?:,.*)?)$", re.MULTILINE)  # a section of one, or of constants
CONSTANTS = re.compile(r"cst(\d+)")  # of so many bytes each


def options_of(compiler: str, given: Iterable[str]) -> list[str]:
    """Small objects go where an access needs no address in a register. Line numbers are those that `as` can read."""
    debug = any(word.startswith("-g") and word != "-g0" for word in given)
    if "clang" in compiler.rsplit("/", maxsplit=1)[-1]:
        return ["-gdwarf-4"] if debug else []
    return [f"{LIMIT}{SMALL}", *(["-gno-variable-location-views"] if debug else [])]


def small_bytes(assemblies: Iterable[str]) -> int:
    """The bytes of the small objects in files of assembly that a compiler made, each of which has a section of its own."""
    count = 0
    for path in assemblies:
        with open(path, encoding="utf-8", errors="surrogateescape") as file:
            _, *sections = SECTION.split(file.read())
        count += sum(int(match[1]) for match in map(SIZE.search, sections) if match)
    return count


def size_of(name: str, content: str) -> Optional[int]:
    """The bytes of the object, or of each constant, in a section whose name ends so; None where the content doesn't say it."""
    size = re.search(rf"^\s*\.size\s+{re.escape(name)},\s*(\d+)$", content, re.MULTILINE) or CONSTANTS.fullmatch(name)
    return int(size[1]) if size else None


def with_limit(text: str, limit: int) -> Optional[str]:
    """What gcc makes of the same source where objects of at most so many bytes are small, and fewer than in this text: it has
    other names of sections alone. Constants whose size no section tells aren't small then. None where an object has no section
    of its own."""
    found = list(OBJECT.finditer(text))
    if len(found) != len(SECTION.findall(text)):
        return None
    starts = [match.start() for match in found] + [len(text)]
    pieces = [text[:starts[0]]]
    for match, end in zip(found, starts[1:]):
        content = text[match.end():end]
        size = size_of(match[3], content) if match[3] else SMALL
        if size is None:
            return None
        pieces += [match[1], "s" * (size <= limit), match[2], content]
    return "".join(pieces)
