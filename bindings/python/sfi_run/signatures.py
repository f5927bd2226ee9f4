"""Signatures: what a function takes and gives, as an image claims it of its exports and imports, or its host states it.

`(ii)i` is one of two signed integers, which gives a third. Between the parentheses there is a letter for each parameter, and after
them that of the result:

    y, c    an integer of 8 bits, signed and unsigned: an int from -128 to 127, and from 0 to 255
    h, k    an integer of 16 bits: an int from -32768 to 32767, and from 0 to 65535
    t       a bool: True and False, or 1 and 0. What a sandbox gives is True unless its lowest 8 bits are 0
    i, u    an integer of 32 bits, signed and unsigned: an int, from -2^31 to 2^32 - 1 for both
    l, m    an integer of 64 bits, signed and unsigned: an int
    f, d    a float and a double: a float
    p       an address: an int from 0 to 2^32 - 1
    s       a text that ends in a byte 0: a str, in UTF-8. As a result None is the address 0
    b       bytes that are read, and their number: bytes; not as a result
    w       bytes that are read and written, and their number: a bytearray; not as a result
    v       nothing: None; only as a result

A parameter takes one register, or two (l, m, d, b and w), and a function has at most eight. What a sandbox gives of 8 or 16 bits is
what the lowest bits of the register say. What is said here of an image is its author's claim: a false one makes calls go wrong, and
lets nothing out of the sandbox. But by it the image chooses of which types a handler's values are, unless the host states signatures.
"""
from __future__ import annotations

import functools
import operator
import re
import reprlib
import struct
from collections.abc import Callable, Sequence
from dataclasses import dataclass
from typing import Any

from .told import WrongArguments

WORDS = {"y": 1, "c": 1, "h": 1, "k": 1, "t": 1, "i": 1, "u": 1, "l": 2, "m": 2, "f": 1, "d": 2, "p": 1, "s": 1, "b": 2, "w": 2, "v": 0}
MOST_WORDS = 8
WORD = 0xFFFFFFFF
LEAST = -1 << 31
SIGNATURE = re.compile(r"\(([ychktiulmfdpsbw]*)\)([ychktiulmfdpsv])")
RANGES = {"y": (-128, 127), "c": (0, 255), "h": (-1 << 15, (1 << 15) - 1), "k": (0, (1 << 16) - 1), "t": (0, 1),
          "i": (LEAST, WORD), "u": (LEAST, WORD), "p": (0, WORD),
          "l": (-1 << 63, (1 << 63) - 1), "m": (0, (1 << 64) - 1)}
# How values lie in the bytes of whole words: of texts, bytes and buffers their addresses and sizes.
PLACES = {"y": "b3x", "c": "B3x", "h": "h2x", "k": "H2x", "t": "?3x", "i": "i", "u": "I", "p": "I", "l": "q", "m": "Q", "f": "f", "d": "d",
          "s": "I", "b": "II", "w": "II"}
WANTED = {"y": "an int from -128 to 127", "c": "an int from 0 to 255", "h": "an int from -32768 to 32767", "k": "an int from 0 to 65535",
          "t": "a bool", "i": "an int from -2^31 to 2^32 - 1", "u": "an int from -2^31 to 2^32 - 1", "l": "an int from -2^63 to 2^63 - 1",
          "m": "an int from 0 to 2^64 - 1", "f": "a number that a float holds", "d": "a number", "p": "an int from 0 to 2^32 - 1",
          "s": "a str without '\\0'", "b": "bytes", "w": "a bytearray, or another buffer that can be written",
          "v": "None"}

UNFIT = (TypeError, ValueError, OverflowError, struct.error)  # what is raised of a value that a letter hasn't


@dataclass(frozen=True)
class Signature:
    """A function's: the letters of its parameters, and that of its result."""
    parameters: str
    result: str

    @functools.cached_property
    def in_registers(self) -> bool:
        """Whether all parameters lie in registers, none in memory."""
        return not set(self.parameters) & set("sbw")

    @functools.cached_property
    def values(self) -> Callable[[Any], tuple[Any, ...]]:
        """What gives those of a call, of its words a0 and on, if they lie in registers."""
        count = max(2, sum(WORDS[letter] for letter in self.parameters))  # attrgetter gives a tuple of two or more
        words = operator.attrgetter(*(f"a{number}" for number in range(count)))
        pack, unpack = struct.Struct(f"<{count}I").pack, struct.Struct("<" + "".join(PLACES[letter] for letter in self.parameters)).unpack_from
        return lambda call: unpack(pack(*words(call)))

    def __str__(self) -> str:
        return f"({self.parameters}){self.result}"


@dataclass
class Block:
    """Bytes that are to lie in the sandbox, at the address `at`, which the register of that number of a0 to a7 gets. The buffer, if
    there is one, gets what they have become when the call returns."""
    register: int
    data: bytes
    buffer: Any = None
    at: int = 0


def parsed(text: str) -> Signature | None:
    """The signature of that text, if it is one."""
    found = SIGNATURE.fullmatch(text)
    if found is None or sum(WORDS[letter] for letter in found[1]) > MOST_WORDS:
        return None
    return Signature(found[1], found[2])


def claimed(entry: str) -> tuple[str, Signature] | None:
    """The name and signature that an entry of a table of names claims, as `.add(ii)i`, if it is such a claim."""
    name, opening, rest = entry[1:].rpartition("(")
    signature = parsed(opening + rest)
    if not entry.startswith(".") or not name or name.startswith(".") or signature is None:
        return None
    return name, signature


def words_of(letter: str, value: Any) -> tuple[int, ...]:
    """The words of a value that lies in registers. Raises one of UNFIT where the letter hasn't this value."""
    if letter in RANGES:
        low, high = RANGES[letter]
        number = operator.index(value)
        if not low <= number <= high:
            raise ValueError(WANTED[letter])
        return (number & WORD,) if WORDS[letter] == 1 else (number & WORD, number >> 32 & WORD)
    return struct.unpack(f"<{WORDS[letter]}I", struct.pack("<" + PLACES[letter], value))


def value_of(letter: str, words: Sequence[int]) -> int | float:
    """The value of these words, of a letter of those whose values lie in registers: of a narrow one that of their lowest bits."""
    return struct.unpack("<" + PLACES[letter], struct.pack(f"<{WORDS[letter]}I", *words))[0]


def data_of(letter: str, value: Any) -> bytes:
    """The bytes of a text, of bytes, or of a buffer. Raises one of UNFIT where the letter hasn't this value."""
    if letter == "s":
        data = value.encode() if isinstance(value, str) else None
        if data is None or 0 in data:
            raise ValueError(WANTED[letter])
        return data + b"\0"
    with memoryview(value) as view:
        if letter == "w" and (view.readonly or not view.c_contiguous):
            raise ValueError(WANTED[letter])
        return view.tobytes()


def taken(name: str, signature: Signature, given: Sequence[Any]) -> tuple[list[int], list[Block]]:
    """What a0 to a7 get of these arguments, and the bytes that have to lie in the sandbox first. Raises WrongArguments."""
    if len(given) != len(signature.parameters):
        raise WrongArguments(name, str(signature), tuple(given), f"{len(signature.parameters)} arguments are wanted, and not {len(given)}")
    words: list[int] = []
    blocks: list[Block] = []
    for number, (letter, value) in enumerate(zip(signature.parameters, given), 1):
        if letter in "iu" and type(value) is int and LEAST <= value <= WORD:  # as words_of, for what most calls take
            words.append(value & WORD)
            continue
        try:
            if letter in "sbw":
                data = data_of(letter, value)
                blocks.append(Block(len(words), data, value if letter == "w" else None))
                words += (0,) if letter == "s" else (0, len(data))
            else:
                words += words_of(letter, value)
        except UNFIT:
            why = f"argument {number} has to be {WANTED[letter]}, and not {reprlib.repr(value)}"
            raise WrongArguments(name, str(signature), tuple(given), why) from None
    return words, blocks


def split(letters: str, words: Sequence[int]) -> list[tuple[str, Sequence[int]]]:
    """Each letter with those of the words that are its own."""
    found, at = [], 0
    for letter in letters:
        found.append((letter, words[at : at + WORDS[letter]]))
        at += WORDS[letter]
    return found
