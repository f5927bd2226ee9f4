"""An image with the names and the lines of what it was made of: `sfi dis`, `sfi map` and sfi-cc's ELF file tell them."""
import functools
import os
import re
import subprocess
import tempfile
from bisect import bisect_right
from dataclasses import dataclass

from suygapid import TOOLS
from suygapid.cc import compilers
from suygapid.elf.elf import IMAGE, LINKED, Elf, Wrong
from suygapid.elf.image import as_text, image
from suygapid.elf.where import lines_of

SFI_CC = os.path.join(TOOLS, "sfi-cc")
LISTED = re.compile(r"^([0-9a-f]{8}) ([0-9a-f]{4,8}) (.*)$", re.MULTILINE)
REGION = re.compile(r"^sandbox (\d+) code ([0-9a-f]{8}) (\d+) data ", re.MULTILINE)
# A line of `sfi map`, as push_map_line of crates/sfi_answers/src/mapping.rt appends it.
MAPPED = re.compile(r"^sandbox=(\d+) (gate|code|data) (\S+) at=([0-9a-f]{8})$", re.MULTILINE)
CALL = re.compile(r"^jal x([1-9]\d*), (-?\d+)$")
START = "_sfi_start"  # where a program of sfi-cc begins
SOURCES = (".c", ".i", ".cc", ".cpp", ".cxx", ".C", ".ii", ".s", ".asm", ".S")  # what sfi-cc takes


class Failed(Exception):
    """A program that failed, with what it said."""


def run(*words, given=""):
    try:
        done = subprocess.run(words, input=given, stdout=subprocess.PIPE, stderr=subprocess.PIPE, text=True, check=False)
    except OSError as error:
        raise Failed(f"{words[0]} can't be run: {error.strerror}") from error
    if done.returncode:
        raise Failed((done.stderr + done.stdout).rstrip() or f"{words[0]} ended in status {done.returncode}")
    return done.stdout


@dataclass(frozen=True)
class FunctionLine:
    """The function of an instruction, and the line in a file of C or assembly where that is known."""
    function: str
    line: str = ""


class Program:
    """An image, its listing, and what lies where."""

    def __init__(self, sfi, text, mapped=""):
        self.image = bytes.fromhex(text)
        listing = run(sfi, "dis", given=text)
        self.listing = {int(at, 16): (word, said) for at, word, said in LISTED.findall(listing)}
        self.regions = sorted((int(base, 16), int(size), int(number)) for number, base, size in REGION.findall(listing))
        self.labels = [(int(at, 16), name, kind) for _, kind, name, at in MAPPED.findall(mapped)]
        self.functions = sorted(self._functions())

    def _functions(self):
        """The first address of each function, with its name: of a gate's stub, of what is called, of a sandbox's start."""
        named = {at: name for at, name, kind in self.labels if kind != "data"}
        gates = {(at, name) for at, name, kind in self.labels if kind == "gate"}
        starts = {(base + 16 * sum(base <= at < base + size for at, _ in gates), "start") for base, size, _ in self.regions}
        called = {at + int(call[2]) for at, (_, said) in self.listing.items() for call in [CALL.match(said)] if call}
        found = {(at, named.get(at, f"{at:08x}")) for at in called}
        return gates | found | {it for it in starts if it[0] not in dict(found)}

    def place(self, address):
        """What an instruction belongs to."""
        number = bisect_right(self.functions, (address, "\x7f")) - 1
        return FunctionLine(self.functions[number][1]) if number >= 0 else FunctionLine(f"{address:08x}")

    @functools.cached_property
    def starts(self):
        """The first addresses of functions."""
        return {at for at, _ in self.functions}

    def told(self, function):
        """A function's name, and where it is known its file and first line, as speedscope has them."""
        at = next((it for it, name in self.functions if name == function), None)
        path, _, line = self.place(at).line.rpartition(":") if at is not None else ("", "", "")
        return {"name": function, "file": path, "line": int(line)} if path else {"name": function}

    def label(self, address):
        """The name of a gate or label at an address, or nothing."""
        return next((name for at, name, kind in self.labels if at == address and kind != "data"), "")

    def addresses(self, word):
        """The addresses that a word names: a name, or an address in hexadecimal digits."""
        found = {at for at, name, kind in self.labels if name == word and kind != "data"}
        if not found and re.fullmatch(r"(0x)?[0-9a-fA-F]{1,8}", word) and int(word, 16) in self.listing:
            found = {int(word, 16)}
        if not found:
            raise Failed(f"{word} is neither a name nor the address of an instruction")
        return found


class Linked(Program):
    """A program that sfi-cc linked, with the lines of C that it tells."""

    def __init__(self, sfi, path):
        try:
            self.elf = Elf(path)
            super().__init__(sfi, as_text(image([self.elf])).decode())
            asked = sorted(self.listing)
            self.lines = dict(zip(asked, lines_of(self.elf, asked)))
        except OSError as error:
            raise Failed(f"{path} can't be read: {error.strerror}") from error
        except (Wrong, compilers.Failed) as wrong:
            raise Failed(str(wrong)) from wrong
        gates = self.elf.gates()
        named = [(symbol.value, symbol.name) for symbol in self.elf.named()]
        self.labels = [(at, name, "gate" if at in gates else "code" if at in self.listing else "data") for at, name in named]
        self.functions = sorted((at, "start" if name == START else name) for at, name, kind in self.labels if kind != "data")

    def place(self, address):
        return FunctionLine(super().place(address).function, self.lines.get(address, ""))

    def addresses(self, word):
        """Also those where a line's instructions begin, by FILE:LINE."""
        if ":" not in word:
            return super().addresses(word)
        found, before = set(), ""
        for at, line in self.lines.items():
            if line == word != before:
                found.add(at)
            before = line
        if not found:
            raise Failed(f"no instruction is of {word}")
        return found


def compiled(sfi, words):
    """The program of C or assembly, which sfi-cc compiles with `-g`."""
    with tempfile.TemporaryDirectory() as room:
        path = os.path.join(room, "program.elf")
        run(SFI_CC, "--program", sfi, "-g", *words, "-o", path)
        return Linked(sfi, path)


def of_file(sfi, path):
    """The program of an image, of a source text of `sfi build` or that sfi-cc linked, or None of a file for sfi-cc."""
    if path.endswith(SOURCES) and not path.endswith(".s"):
        return None
    try:
        with open(path, "rb") as file:
            data = file.read()
    except OSError as error:
        raise Failed(f"{path} can't be read: {error.strerror}") from error
    try:
        if path.endswith(".s"):
            text = data.decode()
            return Program(sfi, run(sfi, "build", given=text), run(sfi, "map", given=text))
        if path.endswith(".elf") or data.startswith(LINKED):
            return Linked(sfi, path)
        if data.startswith(IMAGE[0]):
            return Program(sfi, data.hex())
        if path.endswith(".hex") or data.lstrip().startswith(IMAGE[1]):
            return Program(sfi, data.decode())
    except ValueError as error:
        raise Failed(f"{path} isn't {'text' if path.endswith('.s') else 'hexadecimal'}") from error
    return None


def program(sfi, words):
    """The program of an image (its bytes or their digits), of a source text of `sfi build` (one .s), that sfi-cc linked, or of files for
    sfi-cc with its options."""
    found = of_file(sfi, words[0]) if len(words) == 1 else None
    if found is None and not any(it.endswith(SOURCES) for it in words):
        raise Failed(f"{words[0]} is neither an image nor a source text (.s) nor a program that sfi-cc linked nor a file for it")
    return found or compiled(sfi, words)
