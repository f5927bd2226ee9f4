"""The table of names at the end of a program's first data bytes: what a host may call, and the gates that the code calls.
docs/IMAGE.md has it. The linker puts the entries where the linker script says, and leaves room for the rest: the claims of
the stack's size and of the room that a called function needs above its stack, where it needs any, and the table's last
bytes."""
import os
import re
import struct
from typing import Callable, Iterable

from suygapid.elf.elf import Elf, Wrong

MAGIC = b"SFIN"
NUMBERS = "<3I"  # the version, how many bytes the exports have, and the imports
FOOTER = struct.calcsize(NUMBERS) + len(MAGIC)
HEAD_OF_ENTRY = "<IB"  # its address, and how long its name is
HEAD = struct.calcsize(HEAD_OF_ENTRY)
LONGEST = 255  # bytes of a name
SERVICE = 3  # of a gate that is known by its name: where the host is the console, its turn ends
EXPORTS, IMPORTS = ".sfi.exports", ".sfi.imports"
API = "__sfi_api"  # the version of the interface
CLAIMS = b"."  # begins a name that no user's entry has: a claim of the tools, whose first field is a number and no address
MOST_SIGNED = 512  # entries of a list: of one that has more, hosts take no signature, since a look at an entry is one at the whole table
STACK = b".stack"  # how many bytes of stack the program was linked with
ROOM = b".room"  # how many bytes lie between the stack of a function that a host calls and the data's last 16
Entry = tuple[int, int, bytes]  # where it lies, its number and its name
ENTRY = "\t.4byte {address}\n\t.byte {size}\n\t.ascii \"{name}\"\n"
MARKED = re.compile(rb"\0__sfi_(export|import)_(\w+)(?=\0)")  # symbols of an object, by passes/telling.py
SIGNED = re.compile(rb"\0__sfi_signature_([a-z]*)_([a-z])_(\w+)(?=\0)")  # and by cc/signatures.py


def is_name(text: str) -> bool:
    return text.isidentifier() and text.isascii() and len(text) <= LONGEST


def entry(name: str, address: object) -> str:
    return ENTRY.format(name=name, address=address, size=len(name))


def entries_of(names, signatures):
    """Those of some names, each with the claim of its signature, where it has one that isn't too long."""
    claims = {name: f".{name}{signatures[name]}" for name in names if name in signatures}
    return "".join(entry(name, name) + (entry(claims[name], 0) if len(claims.get(name, "")) in range(1, LONGEST + 1) else "")
                   for name in names)


def entries(exports: Iterable[str], imports: Iterable[str], signatures: dict[str, str]) -> str:
    """Entries as GNU assembly."""
    lists = ((EXPORTS, exports), (IMPORTS, imports))
    return "".join(f'\t.section {section},"a",@progbits\n' + entries_of(names, signatures) for section, names in lists if names)


def marked(objects: Iterable[str]) -> tuple[list[str], list[str]]:
    """The exports and the imports that objects and archives have from their sources, each name once."""
    found: dict[str, dict[str, None]] = {"export": {}, "import": {}}
    for path in filter(os.path.exists, objects):
        with open(path, "rb") as file:
            for kind, name in MARKED.findall(file.read()):
                found[kind.decode()][name.decode()] = None
    return list(found["export"]), list(found["import"])


def signatures(objects: Iterable[str], names: Iterable[str]) -> tuple[dict[str, str], list[bytes]]:
    """The signatures of these names that objects and archives have from their sources, and a line of each that sources declare
    in several ways, which has none."""
    found: dict[str, dict[str, None]] = {}
    for path in filter(os.path.exists, objects):
        with open(path, "rb") as file:
            for parameters, result, name in SIGNED.findall(file.read()):
                found.setdefault(name.decode(), {})[f"({parameters.decode()}){result.decode()}"] = None
    told = [f"sfi-cc: {name}: files declare it as {' and as '.join(found[name])}, so the image tells no signature of it\n".encode()
            for name in names if len(found.get(name, ())) > 1]
    return {name: next(iter(ways)) for name, ways in found.items() if name in names and len(ways) == 1}, told


def lists(data: bytes) -> tuple[list[Entry], list[Entry]]:
    """Of the table in which first data bytes end, if they do, each entry of the exports and of the imports: where it lies, its
    number and its name."""
    if data[-len(MAGIC):] != MAGIC or len(data) < FOOTER:
        return [], []
    end = len(data) - FOOTER
    _, exports, imports = struct.unpack_from(NUMBERS, data, end)
    return entries_between(data, end - exports - imports, end - imports), entries_between(data, end - imports, end)


def entries_between(data: bytes, at: int, end: int) -> list[Entry]:
    found = []
    while 0 <= at <= end - HEAD:
        number, size = struct.unpack_from(HEAD_OF_ENTRY, data, at)
        found.append((at, number, data[at + HEAD:at + HEAD + size]))
        at += HEAD + size
    return found


def moved_names(data: bytes, there: Callable[[int], int]) -> bytes:
    """The first data bytes with the addresses in their table as a function says, where they end in a table. A claim stays."""
    found, (exports, imports) = bytearray(data), lists(data)
    for at, address, name in exports + imports:
        if not name.startswith(CLAIMS):
            struct.pack_into("<I", found, at, there(address))
    return bytes(found)


def too_long_lists(data: bytes) -> bytes:
    """A line of each list of the table in which the data ends that has signatures, and too many entries for them."""
    return "".join(f"sfi-cc: {len(entries)} {what} with their claims are more than {MOST_SIGNED}, so hosts take no signature of them\n"
                   for what, entries in zip(("exports", "imports"), lists(data))
                   if len(entries) > MOST_SIGNED and any(name.startswith(CLAIMS) and b"(" in name for _, _, name in entries)).encode()


def claim(name: bytes, number: int) -> bytes:
    return struct.pack(HEAD_OF_ENTRY, number, len(name)) + name


def footer(elf: Elf, stack: int) -> tuple[int, bytes]:
    """Where the rest of the table lies, and its bytes: the stack's, and as the last import the room, where it needs any. Nothing
    where a program has no table."""
    first, middle, last, end = (elf.symbol(f"__sfi_{name}") for name in ("exports", "imports", "names", "names_end"))
    if last == end:
        return last, b""
    room = elf.symbol("__sfi_above")
    claims = claim(STACK, stack) + (claim(ROOM, room) if room else b"")
    if last + len(claims) + FOOTER != end:
        raise Wrong(f"{elf.name}: the table of names has another size: link it by the same tools/sfi-cc")
    return last, claims + struct.pack(NUMBERS, elf.symbols.get(API, 0), middle - first, last - middle + len(claims)) + MAGIC
