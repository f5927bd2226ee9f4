"""What a call by signature takes into the sandbox's memory and out of it: the bytes of texts and buffers. Addresses and lengths
that come from there may be any: they are compared with where the data lie before anything is read."""
from __future__ import annotations

import ctypes
from collections.abc import Callable, Sequence
from dataclasses import dataclass
from typing import TYPE_CHECKING, Any

from . import _functions, _library, _limits
from .signatures import LEAST, UNFIT, WANTED, WORD, WORDS, Block, Signature, split, taken, value_of, words_of
from .told import Call, OutsideData, TooLong

if TYPE_CHECKING:
    from . import Sandbox

STACK, A0 = 2, 10  # registers
ALIGNED = 16  # of each block of bytes on the stack
PIECE = 256  # bytes of a text that are read first
ROOM = 1024  # bytes of the stack that the texts and bytes of a call may take where the image doesn't say how much it has
TOP = 16  # the stack begins so far below the data's end, and below the room above it
BYTES_OF_A_STEP = 16  # of texts and bytes, that handlers may get for each step that a run may take


@dataclass(frozen=True)
class Stack:
    """A sandbox's, as its image claims it: how many bytes it has, and how many lie above it."""
    size: int | None = None
    above: int = 0

    def room(self, used: int = 0) -> int:
        """How many bytes of it the texts and bytes of a call may take: half of what is left where the stack pointer is so far below
        the data's end."""
        if self.size is None:
            return ROOM
        return max(self.size - max(used - self.above - TOP, 0), 0) // 2


class TooMuch(Exception):
    """Texts and bytes that are more than a run's handlers may get."""


class Allowance:
    """How many bytes of texts and bytes the handlers of a run of so many steps get at most: its host copies no more, however cheap
    each call of a gate is."""

    def __init__(self, steps: int) -> None:
        self.most = self.left = BYTES_OF_A_STEP * steps

    def take(self, count: int) -> None:
        """Takes note that they get so many. Raises TooMuch where these are too many."""
        if count > self.left:
            raise TooMuch(f"a run of {self.most // BYTES_OF_A_STEP} steps hands {self.most} bytes of texts and bytes to its handlers at most")
        self.left -= count


def _size(blocks: Sequence[Block]) -> int:
    """How much of the stack they take."""
    return sum(-len(block.data) // ALIGNED * -ALIGNED for block in blocks)


def called(sandbox: Sandbox, pc: int, name: str, signature: Signature, given: Sequence[Any], stack: Stack, steps: int,
           serve: Callable[[Call], object] | None, limit: _limits.Limit) -> Any:
    """Calls a function at pc with these arguments: its result."""
    words, blocks = taken(name, signature, given)
    if blocks and _size(blocks) > stack.room():
        raise TooLong(name, _size(blocks), stack.room())
    if not blocks and signature.result != "s":  # then no memory is read or written beside the call
        return _value(sandbox, signature.result, _functions.called(sandbox, pc, words, steps, serve, limit))
    prepare = (lambda: lay(sandbox, name, blocks, stack)) if blocks else None
    sandbox._world._made_here()
    with sandbox._world._lock:
        result = _functions.called(sandbox, pc, words, steps, serve, limit, prepare)
        for block in blocks:
            if block.buffer is not None:
                _bring_back(sandbox, name, block)
        return _value(sandbox, signature.result, result)


def lay(sandbox: Sandbox, name: str, blocks: Sequence[Block], stack: Stack) -> None:
    """Has the bytes lie below the stack pointer of a function that is entered, the stack pointer below them, and their addresses in
    the registers. Raises TooLong where they don't fit there."""
    registers, data, size = _library.Registers(), sandbox.data, _size(blocks)
    sandbox._call("registers", ctypes.byref(registers))
    above, end = registers.x[STACK], data.base + data.size
    room = min(above - data.base, stack.room(end - above)) if data.base <= above <= end else 0
    if size > room:
        raise TooLong(name, size, room)
    for block in blocks:
        registers.x[STACK] -= _size([block])
        block.at = registers.x[A0 + block.register] = registers.x[STACK]
        if block.data:
            sandbox.write(block.at, block.data)
    if not sandbox._call("set_registers", registers):
        raise TooLong(name, size, 0)


def _bring_back(sandbox: Sandbox, name: str, block: Block) -> None:
    """Has a buffer hold what its bytes in the sandbox have become."""
    with memoryview(block.buffer) as view, view.cast("B") as plain:
        if len(plain) != len(block.data):
            raise ValueError(f"{name}: a buffer of {len(block.data)} bytes has {len(plain)} now")
        if block.data:
            plain[:] = sandbox.read(block.at, len(block.data))


def _value(sandbox: Sandbox, letter: str, result: int) -> Any:
    """What a function's result of 64 bits is."""
    words = (result & WORD, result >> 32)
    if letter == "v" or letter == "s" and words[0] == 0:
        return None
    if letter == "s":
        return text_at(sandbox, words[0])
    return value_of(letter, words[: WORDS[letter]])


def text_at(sandbox: Sandbox, at: int, allowance: Allowance | None = None) -> str:
    """The text from an address up to a byte 0, where each byte that isn't UTF-8 is U+FFFD. Raises OutsideData where an address of it
    isn't one of the sandbox's data, and TooMuch."""
    data, found, now = sandbox.data, [], at
    while data.base <= now < data.base + data.size:
        piece = sandbox.read(now, min(PIECE << len(found), data.base + data.size - now))
        text, end, _ = piece.partition(b"\0")
        if allowance:
            allowance.take(len(text))
        found.append(text)
        if end:
            return b"".join(found).decode("utf-8", "replace")
        now += len(piece)
    raise OutsideData(f"a text at {at:08x}")


def bytes_at(sandbox: Sandbox, at: int, count: int, allowance: Allowance) -> bytes:
    """So many bytes from an address on. Raises likewise."""
    data = sandbox.data
    if count and not data.base <= at <= data.base + data.size - count:
        raise OutsideData(f"{count} bytes at {at:08x}")
    allowance.take(count)
    return sandbox.read(at, count)


def served(name: str, signature: Signature, handler: Callable[..., Any], call: Call, allowance: Allowance) -> None:
    """Replies to a call of a gate, as a handler answers to its arguments. What the handler leaves in a buffer is written back."""
    if signature.in_registers:
        answer = handler(*signature.values(call))
        if call.is_waiting:
            call.reply(*_answered(name, signature, answer))
        return
    values = _values(name, signature, call, allowance)
    sizes = [len(value) if letter == "w" else 0 for letter, value in zip(signature.parameters, values)]
    answer = handler(*values)
    if not call.is_waiting:
        return
    words = _answered(name, signature, answer)
    for (letter, (at, *_)), value, size in zip(split(signature.parameters, _words(call)), values, sizes):
        if letter == "w" and len(value) != size:
            raise ValueError(f"{name}{signature}: the handler's buffer of {size} bytes has {len(value)} now")
        if letter == "w" and size:
            call.sandbox.write(at, value)
    call.reply(*words)


def _words(call: Call) -> tuple[int, ...]:
    return (call.a0, call.a1, call.a2, call.a3, call.a4, call.a5, call.a6, call.a7)


def _values(name: str, signature: Signature, call: Call, allowance: Allowance) -> list[Any]:
    """A call's arguments. Refuses it where an address or a length lies, and where the run's handlers get no more."""
    values: list[Any] = []
    for letter, words in split(signature.parameters, _words(call)):
        try:
            values.append(_argument(call.sandbox, letter, words, allowance))
        except OutsideData as outside:
            raise _functions.Refusal(f"{name}{signature}: argument {len(values) + 1}, {outside}, isn't in its data") from None
        except TooMuch as more:
            raise _functions.Refusal(f"{name}{signature}: argument {len(values) + 1} is too long, as {more}") from None
    return values


def _argument(sandbox: Sandbox, letter: str, words: Sequence[int], allowance: Allowance) -> Any:
    """One of a handler's arguments. Raises OutsideData and TooMuch."""
    if letter == "s":
        return text_at(sandbox, *words, allowance)
    if letter not in "bw":
        return value_of(letter, words)
    data = bytes_at(sandbox, *words, allowance)
    return bytearray(data) if letter == "w" else data


def _answered(name: str, signature: Signature, answer: Any) -> tuple[int, ...]:
    """The words of what a handler answered."""
    if signature.result == "v" or signature.result == "s" and answer is None:
        return (0,)
    if signature.result in "iu" and type(answer) is int and LEAST <= answer <= WORD:
        return (answer & WORD,)
    letter = "p" if signature.result == "s" else signature.result
    try:
        return words_of(letter, answer)
    except UNFIT:
        raise TypeError(f"{name}{signature}: the handler has to answer {WANTED[letter]}, and not {answer!r}") from None
