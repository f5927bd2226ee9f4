"""What ends a run beside its steps: a time, and another thread."""
from __future__ import annotations

import time
from typing import Protocol

from .told import Ended

STEPS = 100_000  # after which a run looks at its limit again, and python at its signals: interpreted about a millisecond


class Interrupt(Protocol):
    """What ends runs once it is set, as a `threading.Event` is by any thread."""

    def is_set(self) -> bool: ...


class Limit:
    """That of one run, whose time begins now. A call within it ends, too, where this one is over."""
    __slots__ = ("_deadline", "_interrupt", "around", "cause")

    def __init__(self, timeout: float | None = None, interrupt: Interrupt | None = None) -> None:
        if timeout is not None and not timeout >= 0:
            raise ValueError(f"timeout is {timeout}, and has to be at least 0 seconds")
        if interrupt is not None and not callable(getattr(interrupt, "is_set", None)):
            raise TypeError(f"interrupt is no threading.Event: {interrupt!r}")
        self._deadline = None if timeout is None else time.monotonic() + timeout
        self._interrupt = interrupt
        self.around: Limit | None = None
        self.cause: Ended | None = None  # why the run ended, if this ended it

    def is_over(self) -> bool:
        """Whether no more turn of the run may begin."""
        if self._interrupt is not None and self._interrupt.is_set():
            self.cause = Ended.INTERRUPTED
        elif self._deadline is not None and time.monotonic() >= self._deadline:
            self.cause = Ended.TIMED_OUT
        elif self.around is not None and self.around.is_over():
            self.cause = self.around.cause
        return self.cause is not None
