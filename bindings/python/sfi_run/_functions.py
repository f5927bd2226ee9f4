"""Calls of functions, each of which is over when its caller gets the answer or the reason why there is none."""
from __future__ import annotations

import ctypes
import operator
from collections.abc import Callable, Sequence
from typing import TYPE_CHECKING

from . import _library, _limits
from .told import Call, Ended, Event, Exited, NotReturned, Ready, Trapped

if TYPE_CHECKING:
    from . import Sandbox

EXIT = 0  # the service
CALLABLE = "it has stopped, and can be called"


class Refusal(Exception):
    """What `serve` raises where it refuses a call, with the reason."""


def called(sandbox: Sandbox, pc: int, given: Sequence[int], steps: int, serve: Callable[[Call], object] | None,
           limit: _limits.Limit, prepare: Callable[[], None] | None = None) -> int:
    """What `Sandbox.call64` answers. `prepare` is called when the function is entered, and nothing of it has run."""
    at, arguments, steps = _library.word(operator.index(pc)), _library.arguments(given), operator.index(steps)
    if steps < 0:
        raise ValueError(f"steps is {steps}, and has to be at least 0")
    if serve is not None and not callable(serve):
        raise TypeError(f"serve is no function: {serve!r}")
    world = sandbox._world
    world._made_here()
    with world._lock:
        run = Run(sandbox, limit)
        run.enter(at, arguments)
        return run.finish(steps, serve, prepare)


class Run:
    """A run of a sandbox until it exits, which is over when it has finished, however: that of its start, if it isn't entered."""
    __slots__ = ("sandbox", "limit", "pc", "after", "entered", "found", "kept")

    def __init__(self, sandbox: Sandbox, limit: _limits.Limit) -> None:
        self.sandbox, self.limit, self.after = sandbox, limit, "it has stopped"
        self.pc: int | None = None
        self.entered = sandbox._seat.entered
        self.found: tuple[int, int] | None = None  # its last move and entry when it stood at a call
        self.kept: _library.Registers | None = None  # those that it had there

    def enter(self, pc: int, arguments: ctypes.Array[ctypes.c_uint32]) -> None:
        """Enters a function, or raises why it can't be entered; nothing changes then."""
        sandbox, seat = self.sandbox, self.sandbox._seat
        self.pc, self.after = pc, CALLABLE
        if not sandbox._entered("enter", pc, arguments):
            kept, found = _library.Registers(), (seat.gone_on, seat.entered)
            if not sandbox._entered("call_back", pc, arguments, ctypes.byref(kept)):
                event = sandbox.event
                cause = Ended.BUSY if isinstance(event, Ready) else Ended.NO_FUNCTION
                raise NotReturned(cause, event, f"{self._what()} didn't begin: {cause.value}")
            self.found, self.kept, self.after = found, kept, "it stands again at the call at which it was called"
        self.entered = seat.entered

    def finish(self, steps: int, serve: Callable[[Call], object] | None, prepare: Callable[[], None] | None = None) -> int:
        """The result, of 64 bits, or raises why there is none."""
        world, limit = self.sandbox._world, self.limit
        limit.around, world._limit = world._limit, limit
        try:
            if prepare:
                prepare()
            result = self._result(steps, serve)
        except BaseException:
            self._end()
            raise
        finally:
            world._limit = limit.around
        if self.kept is not None:
            self._end()
        return result

    def _result(self, steps: int, serve: Callable[[Call], object] | None) -> int:
        sandbox, seat, high = self.sandbox, self.sandbox._seat, 0
        for event in sandbox._events(sandbox.steps + steps, self.limit):
            if isinstance(event, Call):
                if event.service == EXIT:
                    high = event.a1
                    event.exit(event.a0)
                elif serve:
                    self._serve(event, serve)
                    if seat.entered != self.entered:
                        raise self._failure(Ended.GONE, sandbox.event if sandbox._is_there() else None)
        if isinstance(event, Exited):
            return high << 32 | event.number
        if isinstance(event, Ready):
            raise self._failure(self.limit.cause or Ended.STEPS_USED, event)
        if isinstance(event, Call):
            raise self._failure(Ended.REFUSED, event)
        raise self._failure(Ended.TRAPPED if isinstance(event, Trapped) else Ended.STOPPED, event)

    def _serve(self, call: Call, serve: Callable[[Call], object]) -> None:
        try:
            serve(call)
        except Refusal as refused:
            raise self._failure(Ended.REFUSED, call, f", {refused}") from None

    def _is_gone(self) -> bool:
        """Whether a handler entered the sandbox for something else: of this run nothing is left then."""
        return self.sandbox._seat.entered != self.entered

    def _end(self) -> None:
        """Has the sandbox stand at the call again at which it was called, or else stop."""
        sandbox, seat = self.sandbox, self.sandbox._seat
        if not sandbox._is_there():
            return
        if self.kept is None or self._is_gone():
            sandbox._changed("stop")
        else:
            sandbox._call("set_registers", self.kept)
            seat.gone_on, seat.entered = self.found

    def _what(self) -> str:
        return f"the {'start' if self.pc is None else f'call of {self.pc:08x}'} in sandbox {self.sandbox.number}"

    def _failure(self, cause: Ended, event: Event | None, more: str = "") -> NotReturned:
        why = cause.value
        if cause is Ended.TRAPPED:
            why = f"{why}, {event.cause.name.capitalize()} at {event.address:08x}"
        if cause is Ended.REFUSED:
            why = f"{why} (service {event.service} at {event.pc:08x}{more})"
        now = CALLABLE if cause is Ended.GONE else self.after
        if event is None:
            now = "it is no longer there"
        return NotReturned(cause, event, f"{self._what()} is over: {why}. Of the sandbox: {now}")
