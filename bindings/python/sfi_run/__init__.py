"""Runs sandboxes of untrusted RISC-V code, by Suygapid's proved library.

An image is checked and loaded into a `World`, its sandboxes get turns, and where one calls a gate the program is handed the
call, serves it, and replies:

    import sfi_run

    with sfi_run.World(image) as world:
        sandbox = world[0]
        for event in sandbox.events(steps=10_000):
            if isinstance(event, sfi_run.Call):
                if event.service == 0:
                    event.exit(event.a0)
                else:
                    event.reply(len(sandbox.read(event.a0, event.a1)))
        print(event)  # Exited(number=..), Trapped(..), or Ready() where the steps didn't suffice

Whatever the sandbox does, and whatever is written, entered and replied, it reads and writes its own data alone. What it
leaves there, and passes in a call, may be any bytes and numbers at all: test them before you rely on them.
"""
from __future__ import annotations

import ctypes
import itertools
import os
import threading
from collections.abc import Callable, Iterator, Sequence
from types import TracebackType
from typing import TYPE_CHECKING, Any

from . import _functions, _library, _limits, _views
from ._library import arguments as _words, word as _word
from .told import (Call, Cause, Ended, Event, Exited, Finding, Meets, NoImage, NotEntered, NotReturned, NotRunning, NotWaiting,
                   OutsideData, Ready, Refused, Registers, Region, Stopped, TooLong, Trapped, WrongArguments, WrongSignature)

if TYPE_CHECKING:
    from .modules import Module

__all__ = [
    "Call", "Cause", "Ended", "Event", "Exited", "Finding", "Library", "Meets", "NoImage", "NotEntered", "NotReturned", "NotRunning",
    "NotWaiting", "OutsideData", "Ready", "Refused", "Registers", "Region", "Sandbox", "Stopped", "TooLong", "Trapped", "World",
    "WrongArguments", "WrongSignature",
]
__version__ = "0.1.0"

Library = _library.Library
_SMALL = 1 << 20  # bytes for which a read makes room, also where the data have fewer
_ENGINES = {1: "interpreter", 2: "native"}  # enum sfi_run_engine


def _bytes(data: bytes) -> bytes:
    """A copy of what has bytes. `bytes(n)` of a number n would be n zeros."""
    return memoryview(data).tobytes()


def _make(make: Callable[..., int], image: bytes, made: Any) -> None:
    """Has a call of the library make something of an image, or raises why there is none."""
    verdict = _library.Verdict()
    status = make(image, len(image), made, ctypes.byref(verdict))
    if status == 1:
        raise Refused(verdict.findings, Finding(verdict.sandbox, verdict.address, verdict.rule))
    if status == 2:
        raise NoImage(verdict.layout_fault)
    if status == 3:
        raise MemoryError("there was no memory for the world of the image")
    if status:
        raise RuntimeError(f"the library answered with status {status}, which this package doesn't know")


class _Seat:
    """What the objects of one sandbox share: its number, which is that of its world's list; its last reply, stop or entry; and
    its last entry, which is how it came to the pc and registers that it has: a reset, a removal, and registers that are set
    are entries, too. And how many steps it had done before, where it is restored."""
    __slots__ = ("before", "entered", "gone_on", "number")

    def __init__(self, number: int) -> None:
        self.number, self.gone_on, self.entered, self.before = number, 0, 0, 0

    def enter(self, move: int) -> None:
        self.gone_on = self.entered = move


class World:
    """The sandboxes of an image, to which those of others may be added. Threads may share it, its sandboxes and the plug-ins on
    them: its lock lets one call in at a time, and is held for all of `Sandbox.call`, so that handlers run under it: they wait
    for no thread that uses the same world, nor for one whose own handlers use it. A loop over `events` is many calls: threads
    that share a sandbox want a lock of their own around it. A forked child can't use the world of its parent, and shouldn't
    make one where the parent had threads. It is freed by `close`, at the end of a `with`, or when nothing refers to it any
    more."""

    def __init__(self, image: bytes, library: Library | None = None) -> None:
        """Checks the image's own bytes (`bytes.fromhex` of what `sfi build` prints), and makes the world of its sandboxes, each
        ready at its start. Raises Refused or NoImage where it isn't accepted, MemoryError where there is no memory for it,
        TypeError where it is no bytes, and OSError where there is no library."""
        image, calls = _bytes(image), library or _library.default()
        self._begin(calls, lambda at: _make(calls["load"], image, at))

    def _begin(self, calls: Library, make: Callable[[Any], None]) -> None:
        """Begins as what `make` makes at the address that it is given."""
        self._raw, self._calls = _library.World(), calls
        self._process = os.getpid()
        self._lock = threading.RLock()  # a collection in the midst of a call may free another world, and this one never
        self._at = ctypes.byref(self._raw)
        make(self._at)
        self._seats = [_Seat(number) for number in range(self._calls["count"](self._at))]
        self._moves = itertools.count(1)  # each reply, stop and entry has its number
        self._limit: _limits.Limit | None = None  # that of the call whose handler runs
        self._views: list[Any] = []  # those of sandboxes' data
        self._is_open = True

    def _made_here(self) -> None:
        """The library asks that no call is made in a forked child, where another thread's call may never end."""
        if os.getpid() != self._process:
            raise RuntimeError("a world is used by the process that made it alone, and not by a forked child")

    def close(self) -> None:
        """Frees the world. It has no sandboxes then."""
        self._made_here()
        with self._lock:
            _views.release(self)
            self._calls["free"](self._at)
            for seat in self._seats:
                seat.enter(next(self._moves))
            self._seats, self._is_open = [], False

    def add(self, module: Module) -> list[Sandbox]:
        """Adds the sandboxes of a module, beside those that are there, of which nothing changes: these new ones, each ready at
        its start, with the numbers after theirs. Raises Meets where one would lie where another does (`sfi move` gives an image
        with other places), and MemoryError where there is no memory; nothing changes then. A Console has to be made anew."""
        first = ctypes.c_uint32()
        self._made_here()
        with self._lock:
            if not self._is_open or module._calls is not self._calls:
                raise ValueError("the world is closed, or the module is one of another library")
            self._has_changed(module._used(lambda at: self._calls["add"](self._at, at, ctypes.byref(first))))
            count = self._calls["count"](self._at)
            self._seats += [_Seat(number) for number in range(first.value, count)]
            return [Sandbox(self, seat) for seat in self._seats[first.value :]]

    def remove(self, sandbox: Sandbox) -> None:
        """Removes a sandbox of this world, whatever it did: what it had is gone, and each call of it raises IndexError. Those of
        higher numbers have a number less by one then, which their objects know; nothing else of them changes. Raises MemoryError
        where there is no memory; nothing changes then. A Console has to be made anew."""
        if sandbox._world is not self:
            raise ValueError("the sandbox is one of another world")
        with self._lock:
            self._has_changed(sandbox._call("remove"))
            sandbox._seat.enter(next(self._moves))
            self._seats.remove(sandbox._seat)
            for number, other in enumerate(self._seats):
                other.number = number

    @staticmethod
    def _has_changed(status: int) -> None:
        """Raises why a call of the library changed nothing, if so."""
        if status == 4:
            raise Meets("a sandbox of the module would lie where one of the world does")
        if status in (5, 6):
            raise MemoryError("there was no memory, or no number left, for a sandbox more")
        if status:
            raise RuntimeError(f"the library answered with status {status}, which this package doesn't know")

    def __enter__(self) -> World:
        return self

    def __exit__(self, kind: type[BaseException] | None, value: BaseException | None, trace: TracebackType | None) -> None:
        self.close()

    def __del__(self) -> None:
        # A forked child has a copy of the memory, which ends with it.
        if getattr(self, "_is_open", False) and os.getpid() == self._process:
            self.close()

    @property
    def engine(self) -> str:
        """How its sandboxes run: "native", by code that libsfi_run_native (SFI_RUN_LIBRARY) made of their images, or "interpreter", at
        least one of them step by step. ValueError where the world is closed.

        The first native world handles SIGSEGV. `faulthandler.enable()` comes before it, or a sandbox that traps ends the process."""
        self._made_here()
        with self._lock:
            if not self._is_open:
                raise ValueError("the world is closed")
            return _ENGINES[self._calls.engine(self._at)] if self._calls.engine else _ENGINES[1]

    def __len__(self) -> int:
        """How many sandboxes there are: of one image 1 to 16."""
        return len(self._seats)

    def __getitem__(self, number: int) -> Sandbox:
        """A sandbox, by its number from 0."""
        if not 0 <= number < len(self._seats):
            raise IndexError(f"there is no sandbox {number}")
        return Sandbox(self, self._seats[number])

    def __iter__(self) -> Iterator[Sandbox]:
        return iter([Sandbox(self, seat) for seat in self._seats])


class Sandbox:
    """A sandbox of a world. After it is removed, or the world is closed, every call of it raises IndexError."""
    __slots__ = ("_seat", "_world")

    def __init__(self, world: World, seat: _Seat) -> None:
        self._world, self._seat = world, seat

    @property
    def number(self) -> int:
        """Its number in the world, from 0."""
        return self._seat.number

    def _is_there(self) -> bool:
        world, number = self._world, self._seat.number
        return number < len(world._seats) and world._seats[number] is self._seat

    def _place(self) -> int:
        """Its number, if it is still there."""
        if not self._is_there():
            raise IndexError("the sandbox is removed" if self._world._is_open else "the world is closed")
        return self._seat.number

    def _call(self, name: str, *arguments: Any) -> Any:
        world = self._world
        world._made_here()
        with world._lock:
            if world._views and name in _views.ENDING:
                _views.release(world)
            return world._calls[name](world._at, self._place(), *arguments)

    def _changed(self, name: str, *arguments: Any) -> bool:
        """Whether a call did what it is for, after which a Call that was told before is no more."""
        with self._world._lock:
            is_done = self._call(name, *arguments)
            if is_done:
                self._seat.gone_on = next(self._world._moves)
            return is_done

    def _entered(self, name: str, *arguments: Any) -> bool:
        """The same of a call that enters it."""
        with self._world._lock:
            is_done = self._changed(name, *arguments)
            if is_done:
                self._seat.entered = self._seat.gone_on
            return is_done

    def _told(self, name: str, *arguments: Any) -> Event:
        raw = _library.Event()
        with self._world._lock:
            kind = self._call(name, *arguments, ctypes.byref(raw))
            turns = self._seat.gone_on
        if kind == 1:
            return Ready()
        if kind == 2:
            return Call(raw.number, raw.a0, raw.a1, raw.a2, raw.a3, raw.a4, raw.a5, raw.a6, raw.a7, raw.gate, raw.pc, self, turns)
        if kind == 3:
            return Exited(raw.number)
        if kind == 4:
            return Trapped(Cause(raw.number), raw.a0)
        if kind == 5:
            return Stopped()
        raise RuntimeError(f"the library answered with an event of kind {kind}, which this package doesn't know")

    def turn(self, steps: int) -> Event:
        """Runs it for at most `steps` steps, and no further than its next call: how it stands then. An instruction that is
        done and a call that is replied to are a step each. One that stands at a call already, or has stopped, does none.
        KeyboardInterrupt, and what else a signal's handler raises, ends the turn; the next one goes on from there."""
        return self._turned(steps, (), "turn")

    def until(self, stops: Sequence[int], steps: int) -> Event:
        """The same, but the turn ends, too, before an instruction at one of the addresses `stops`. Its first step is made in
        any case, so that it goes on from a stop."""
        return self._turned(steps, stops, "until", (ctypes.c_uint32 * max(1, len(stops)))(*map(_word, stops)), len(stops))

    def _turned(self, steps: int, stops: Sequence[int], name: str, *arguments: Any) -> Event:
        """A turn, as short ones, between which python sees signals."""
        left = _word(steps)
        with self._world._lock:
            while True:
                event = self._told(name, *arguments, min(left, _limits.STEPS))
                left -= _limits.STEPS
                if left <= 0 or not isinstance(event, Ready) or stops and self.pc in stops:
                    return event

    @property
    def event(self) -> Event:
        """How it stands."""
        return self._told("event")

    def events(self, steps: int, *, timeout: float | None = None, interrupt: _limits.Interrupt | None = None) -> Iterator[Event]:
        """Runs it for at most `steps` steps in all: yields each call, which is to be replied to before the next event is
        asked for, and last how it stands then. A call that comes when all steps are used counts as Ready here: it is the
        first event of the next run. One that isn't replied to is the last event. Steps that the loop's body has the sandbox do
        count, too: where they use up all that are left, the run is over.

        Once `timeout` seconds have passed from now on, or `interrupt` (a `threading.Event`) is set by whatever thread, the run is over,
        too, after a millisecond or so: its last event is Ready where the sandbox can go on, as it does in the next run."""
        if steps < 0:
            raise ValueError(f"steps is {steps}, and has to be at least 0")
        return self._events(self.steps + steps, _limits.Limit(timeout, interrupt))

    def _events(self, end: int, limit: _limits.Limit) -> Iterator[Event]:
        now = self.steps
        while True:
            is_over = limit.is_over()
            event = self.turn(0 if is_over else min(max(0, end - now), _limits.STEPS))
            if isinstance(event, (Ready, Call)):
                now = self.steps
                if isinstance(event, Ready) and now < end and not is_over:
                    continue  # there were more steps than this turn takes
                if now >= end or is_over:
                    event = Ready()
            yield event
            if not isinstance(event, Call) or self._seat.gone_on == event._turns:
                return
            now = self.steps

    def reply(self, a0: int, a1: int) -> None:
        """Replies to the call at which it stands: it goes on after it in its next turn, with these in a0 and a1. Raises
        NotWaiting where it stands at no call, and ValueError as `Call.reply` does."""
        if not self._changed("reply", _word(a0), _word(a1)):
            raise NotWaiting(f"sandbox {self.number} stands at no call")

    def exit(self, number: int) -> None:
        """The other reply: it stops at the call, with that number."""
        if not self._changed("exit", _word(number)):
            raise NotWaiting(f"sandbox {self.number} stands at no call")

    def read(self, at: int, count: int) -> bytes:
        """The `count` bytes of its data from address `at` on. Raises OutsideData where one isn't of its data."""
        is_possible = 0 <= count <= _SMALL or 0 <= count <= self.data.size  # nothing larger is made room for
        room = ctypes.create_string_buffer(max(count, 1) if is_possible else 1)
        if not is_possible or not self._call("read", _word(at), count, room, len(room)):
            raise OutsideData(f"{count} bytes at {at:08x}")
        return room.raw[:count]

    def write(self, at: int, data: bytes) -> None:
        """Writes these bytes into its data from an address on, or none of them and raises OutsideData. Raises TypeError where
        `data` is no bytes."""
        data = _bytes(data)
        if not self._call("write", _word(at), data, len(data)):
            raise OutsideData(f"{len(data)} bytes at {at:08x}")

    def view(self, at: int, count: int) -> memoryview:
        """The same bytes as `read` gives, to be read and written where they lie, without a copy: until a sandbox of the world next
        runs, or is reset or removed, or the world closed, which releases the view. Then, as for a bytearray that is resized,
        BufferError tells that a slice of it is still there, or what was made of one. Only a world whose `engine` is
        native has such bytes: NotImplementedError in another."""
        data, begin = self.data, self._world._calls.native_data
        with self._world._lock:
            first = begin(self._world._at, self._place()) if begin else None
            if first is None:
                raise NotImplementedError("the interpreter keeps data in pages, which `read` and `write` copy; a native world has views")
            if not (data.base <= at and 0 <= count <= data.base + data.size - at):
                raise OutsideData(f"{count} bytes at {at:08x}")
            return _views.shown(self._world, first + at - data.base, count)

    def stop(self) -> None:
        """Stops it, whether it is ready or stands at a call: no turn runs it, and it takes no reply. Its data, pc, registers and
        steps stay, and `enter` may enter it again. Raises NotRunning where it has stopped already."""
        if not self._changed("stop"):
            raise NotRunning(f"sandbox {self.number} has stopped already")

    def reset(self) -> None:
        """Takes it back to what it was when its world was made, whatever it did and wherever it stands: its data, pc and
        registers are those of then, it is ready, and has done 0 steps. No call that was told before is replied to any more."""
        self._entered("reset")
        self._seat.before = 0

    def enter(self, pc: int, arguments: Sequence[int] = ()) -> None:
        """Makes it ready at pc, where it has stopped, with at most eight arguments in a0 to a7 and 0 in those that are
        left. A function that returns calls its first gate of service 0. Its data stay, and its steps are counted on. Raises
        NotEntered where it hasn't stopped, or no bundle or word of its code begins at pc, ValueError where an argument isn't
        from -2^31 to 2^32 - 1 (a negative one is taken modulo 2^32), and TypeError where it is no int."""
        if not self._entered("enter", _word(pc), _words(arguments)):
            raise NotEntered(f"sandbox {self.number} can't be entered at {pc:08x}")

    def call(self, pc: int, *arguments: int, steps: int, serve: Callable[[Call], object] | None = None,
             timeout: float | None = None, interrupt: _limits.Interrupt | None = None) -> int:
        """Calls a function: enters it at pc, runs it for at most `steps` steps in all, and answers its result, with which it
        exits. `serve` replies to its calls of gates of other services, and may call functions, too: while one waits for its
        reply, the other runs on its stack, and then it waits again.

        Where it doesn't return, NotReturned tells the cause, and the call is over: the sandbox has stopped, with its data as
        they are, or stands again at the call at which it was called, and the next call of it is right. So it is where `serve`
        raises an exception, which passes on. Before anything runs, arguments are refused as `enter` refuses them.

        `timeout` and `interrupt` end the call as they end `events`, and those that `serve` makes. So does KeyboardInterrupt, which
        passes on."""
        return _functions.called(self, pc, arguments, steps, serve, _limits.Limit(timeout, interrupt)) & 0xFFFFFFFF

    def call64(self, pc: int, *arguments: int, steps: int, serve: Callable[[Call], object] | None = None,
               timeout: float | None = None, interrupt: _limits.Interrupt | None = None) -> int:
        """The same of a function whose result has 64 bits, as a `long long`, or the bytes of a `double`. Of one whose result has
        32, the upper half is what it leaves in a1."""
        return _functions.called(self, pc, arguments, steps, serve, _limits.Limit(timeout, interrupt))

    @property
    def steps(self) -> int:
        """How many steps it has done."""
        return self._call("steps") + self._seat.before

    @property
    def registers(self) -> Registers:
        """Its pc and registers. Set, they make it ready, whether it was ready, stood at a call or had stopped; x0 stays 0. That
        raises NotEntered where no bundle or word of its code begins at pc, or a reserved or typed register would hold what it
        mustn't, and ValueError unless `x` has 32 values. With registers that are put aside at a call, and put back, it stands at
        that call again: `reply` replies to it, or a new event tells of it."""
        raw = _library.Registers()
        self._call("registers", ctypes.byref(raw))
        return Registers(raw.pc, tuple(raw.x))

    @registers.setter
    def registers(self, registers: Registers) -> None:
        if len(registers.x) != 32:
            raise ValueError(f"{len(registers.x)} registers, not 32")
        if not self._entered("set_registers", _library.Registers(_word(registers.pc), tuple(map(_word, registers.x)))):
            raise NotEntered(f"sandbox {self.number} can't go on with these registers")

    @property
    def pc(self) -> int:
        """The address of its next instruction."""
        raw = _library.Registers()
        self._call("registers", ctypes.byref(raw))
        return raw.pc

    @property
    def data(self) -> Region:
        """Where its data lie."""
        raw = _library.Region()
        self._call("data", ctypes.byref(raw))
        return Region(raw.base, raw.size)
