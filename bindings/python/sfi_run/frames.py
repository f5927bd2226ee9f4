"""Backtraces of C: the functions in which a sandbox stands, by the file of which sfi-cc made its image (`-g -o plugin.elf`):

    from sfi_run.frames import Program

    program = Program("plugin.elf")
    try:
        plugin.parse(7)
    except NotReturned:
        print(*program.backtrace(plugin.sandbox), sep="\\n")    # 0100008c digit+0x38, parse.c:3

Who called whom is what the file's call frame information (DWARF 5, 6.4) makes of the sandbox's registers and stack, which may hold
anything: a backtrace explains a trap, and is no premise of anything.
"""
from __future__ import annotations

import bisect
import os
import shutil
import struct
import subprocess
from collections.abc import Callable, Iterator, Sequence
from dataclasses import dataclass, field
from typing import TYPE_CHECKING, Optional, Union

from .told import OutsideData

if TYPE_CHECKING:
    from . import Sandbox

RA, SP = 1, 2  # registers
MOST = 256  # frames that are told
REGISTERS = 64  # that DWARF numbers for this machine; the last half are of floating point
DEEPEST = 64  # rules that are remembered at once
ADDR2LINE = os.environ.get("SFI_BINUTILS", "riscv64-unknown-elf-") + "addr2line"
SYMBOLS = 2  # a section's kind
NO_KIND, FUNCTION = 0, 2  # of a symbol
CIE = 0xFFFFFFFF  # what stands in the place of a pointer to one
# The instructions DW_CFA_ of the same names: the first three by their high two bits, and the advances with the size of their delta.
ADVANCE, OFFSET, RESTORE = 1, 2, 3
ADVANCES = {2: 1, 3: 2, 4: 4}
NOP, OFFSET_EXTENDED, RESTORE_EXTENDED, UNDEFINED, SAME_VALUE, REMEMBER, RECALL = 0, 5, 6, 7, 8, 10, 11
DEF_CFA, DEF_CFA_REGISTER, DEF_CFA_OFFSET = 12, 13, 14

Load = Callable[[int], Optional[int]]  # the word at an address, if it is there


@dataclass(frozen=True)
class Frame:
    """Where a function stands: at its instruction, or where what it calls returns to. What isn't known is empty."""
    address: int
    function: str
    offset: int
    line: str

    def __str__(self) -> str:
        place = f"{self.function}+{self.offset:#x}" if self.function else "?"
        return f"{self.address:08x} {place}" + (f", {self.line}" if self.line else "")


class Unknown(Exception):
    """Call frame information that isn't known here."""


@dataclass
class Rules:
    """How a caller's registers are found: the canonical frame address is that register plus that, and those by numbers lie that far
    from it in memory; None is one that isn't kept, and others have what they had."""
    register: int = SP
    offset: int = 0
    kept: dict[int, Optional[int]] = field(default_factory=dict)

    def copy(self) -> Rules:
        return Rules(self.register, self.offset, dict(self.kept))

    def change(self, code: int, reader: Reader, factor: int, initial: Rules) -> None:
        """Does an instruction whose code was read. Raises Unknown."""
        high = code >> 6
        if high == OFFSET or code == OFFSET_EXTENDED:
            register = code & 63 if high else reader.register()
            self.kept[register] = reader.leb() * factor
        elif high == RESTORE or code == RESTORE_EXTENDED:
            register = code & 63 if high else reader.register()
            self.kept.pop(register, None)
            if register in initial.kept:
                self.kept[register] = initial.kept[register]
        elif code == UNDEFINED:
            self.kept[reader.register()] = None
        elif code == SAME_VALUE:
            self.kept.pop(reader.register(), None)
        elif code == DEF_CFA:
            self.register, self.offset = reader.register(), reader.leb()
        elif code == DEF_CFA_REGISTER:
            self.register = reader.register()
        elif code == DEF_CFA_OFFSET:
            self.offset = reader.leb()
        elif code != NOP:
            raise Unknown


class Reader:
    """Reads what DWARF spells. The file may hold anything: a number that is too long, or a register that isn't there, is Unknown."""

    def __init__(self, content: bytes, at: int, end: int) -> None:
        self.content, self.at, self.end = content, at, end

    def number(self, size: int) -> int:
        self.at += size
        return int.from_bytes(self.content[self.at - size : self.at], "little")

    def leb(self, is_signed: bool = False) -> int:
        value = shift = 0
        while True:
            byte = self.number(1)
            value |= (byte & 127) << shift
            shift += 7
            if not byte & 128 or self.at >= self.end:
                return value - (1 << shift) if is_signed and byte & 64 else value
            if shift > 63:
                raise Unknown

    def register(self) -> int:
        number = self.leb()
        if number >= REGISTERS:
            raise Unknown
        return number

    def text(self) -> bytes:
        start = self.at
        self.at = self.content.index(b"\0", start) + 1
        return self.content[start : self.at - 1]


@dataclass(frozen=True)
class Common:
    """What the functions of a CIE have in common."""
    code_factor: int
    data_factor: int
    begin: tuple[int, int]  # where its instructions are


class Program:
    """A linked program of C."""

    def __init__(self, path: Union[str, os.PathLike[str]]) -> None:
        """Reads the file. Raises ValueError where it is no linked ELF file of 32 bits."""
        with open(path, "rb") as file:
            self._content = file.read()
        self.path = path
        try:
            if self._content[:6] != b"\x7fELF\x01\x01":
                raise ValueError
            self._read()
        except (struct.error, ValueError, IndexError) as error:
            raise ValueError(f"{path} is no linked ELF file of 32 bits") from error

    def _read(self) -> None:
        offset = struct.unpack_from("<I", self._content, 32)[0]
        size, count, names = struct.unpack_from("<3H", self._content, 46)
        headers = [struct.unpack_from("<10I", self._content, offset + number * size) for number in range(count)]
        sections = {self._text(headers[names][4] + header[0]): header[4 : 6] for header in headers}
        table = next((it for it in headers if it[1] == SYMBOLS), None)
        symbols = self._symbols(table[4], table[5], headers[table[6]][4]) if table else []
        self._symbols_at = sorted((value, name) for value, name in symbols if name and not name.startswith((".", "$", "__sfi_")))
        start, size = sections.get(".debug_frame", (0, 0))
        self._frames = start, min(start + size, len(self._content))
        gates_at, gates_size = sections.get(".sfi.gates", (0, 0))
        self._gates = {at for at, _ in struct.iter_unpack("<2I", self._content[gates_at : gates_at + gates_size])}

    def _text(self, at: int) -> str:
        return Reader(self._content, at, len(self._content)).text().decode("utf-8", "replace")

    def _symbols(self, at: int, size: int, texts: int) -> Iterator[tuple[int, str]]:
        for name, value, _, kind, _, section in struct.iter_unpack("<3I2BH", self._content[at : at + size]):
            if section and kind & 15 in (NO_KIND, FUNCTION):
                yield value, self._text(texts + name)

    def function(self, address: int) -> tuple[str, int]:
        """The name of the function at an address, and how far that is from its beginning."""
        place = bisect.bisect(self._symbols_at, (address, "\U0010ffff"))
        if not place:
            return "", 0
        value, name = self._symbols_at[place - 1]
        return name, address - value

    def backtrace(self, sandbox: Sandbox) -> list[Frame]:
        """Where a sandbox stands, and the functions that called that one, the innermost first. It ends where a host's call returns, at a
        function without call frame information, and where the stack is broken."""
        def load(at: int) -> int | None:
            try:
                return int.from_bytes(sandbox.read(at, 4), "little")
            except (OutsideData, ValueError):
                return None
        registers = sandbox.registers
        return self.frames([registers.pc, *self.callers(registers.pc, registers.x, load)])

    def frames(self, addresses: Sequence[int]) -> list[Frame]:
        """What is told of such addresses. A caller's line is that of its call."""
        found = []
        asked = [address - (place > 0) for place, address in enumerate(addresses)]
        for address, at, line in zip(addresses, asked, self._lines(asked)):
            function, offset = self.function(at)
            found.append(Frame(address, function, offset + address - at, line))
        return found

    def _lines(self, addresses: Sequence[int]) -> list[str]:
        """FILE:LINE of each, by binutils, and nothing where they aren't there or don't know it."""
        none = [""] * len(addresses)
        if not shutil.which(ADDR2LINE):
            return none
        done = subprocess.run([ADDR2LINE, "-e", str(self.path), *map(hex, addresses)], capture_output=True, text=True, check=False)
        found = [it.split(" ")[0].rsplit("/", maxsplit=1)[-1] for it in done.stdout.splitlines()]
        return ["" if "?" in it or it.endswith(":0") else it for it in found] if len(found) == len(addresses) else none

    def callers(self, pc: int, x: Sequence[int], load: Load) -> Iterator[int]:
        """Where the function at pc returns to, and its caller, and so on, as far as registers and memory tell."""
        registers: list[Optional[int]] = list(x)
        at = pc
        for _ in range(MOST):
            try:
                rules = self._rules(at)
            except Unknown:
                return
            if rules is None:
                return
            registers = _called_by(registers, rules, load)
            returns = registers[RA]
            if not returns or returns in self._gates:
                return
            yield returns
            at = returns - 1

    def _rules(self, address: int) -> Optional[Rules]:
        """Those of an address, if the file has them. Raises Unknown."""
        start, stop = self._frames
        reader = Reader(self._content, start, stop)
        while reader.at < stop:
            length, kind = reader.number(4), reader.number(4)
            end = min(reader.at - 4 + length, stop)
            if kind != CIE:
                first, count = reader.number(4), reader.number(4)
                if first <= address < first + count:
                    common = self._common(start + kind)
                    initial = self._run(common, Reader(self._content, *common.begin), Rules(), Rules(), None)
                    return self._run(common, Reader(self._content, reader.at, end), initial.copy(), initial, address - first)
            reader.at = end
        return None

    def _common(self, at: int) -> Common:
        reader = Reader(self._content, at, at)
        length = reader.number(4)
        end = min(reader.at + length, self._frames[1])
        reader.number(4)
        version, augmentation = reader.number(1), reader.number(1)  # which is empty
        if version not in (1, 3, 4) or augmentation:
            raise Unknown
        if version == 4:
            reader.number(2)  # the sizes of addresses and of segments
        code, data = reader.leb(), reader.leb(True)
        if (reader.number(1) if version == 1 else reader.leb()) != RA:
            raise Unknown
        return Common(code, data, (reader.at, end))

    @staticmethod
    def _run(common: Common, reader: Reader, rules: Rules, initial: Rules, upto: Optional[int]) -> Rules:
        """The rules that hold so far from the function's beginning, by the instructions that the reader gives."""
        at, remembered = 0, []
        while reader.at < reader.end:
            code = reader.number(1)
            if code >> 6 == ADVANCE or code in ADVANCES:
                at += (code & 63 if code >> 6 else reader.number(ADVANCES[code])) * common.code_factor
                if upto is not None and at > upto:
                    return rules
            elif code == REMEMBER:
                if len(remembered) == DEEPEST:
                    raise Unknown
                remembered.append(rules.copy())
            elif code == RECALL and remembered:
                rules = remembered.pop()
            else:
                rules.change(code, reader, common.data_factor, initial)
        return rules


def _called_by(registers: Sequence[Optional[int]], rules: Rules, load: Load) -> list[Optional[int]]:
    """A caller's registers, as far as they are known."""
    base = registers[rules.register] if rules.register < len(registers) else None
    cfa = None if base is None else base + rules.offset & 0xFFFFFFFF
    found = list(registers)
    for register, offset in rules.kept.items():
        if register >= len(found):
            continue
        found[register] = None if cfa is None or offset is None else load(cfa + offset & 0xFFFFFFFF)
    found[SP] = cfa
    return found
