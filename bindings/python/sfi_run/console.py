"""The console of `sfi run`, ready made: the library's own host for sandboxes, whose services docs/GATES.md lists."""
from __future__ import annotations

import ctypes
import os

from . import Call, Exited, Sandbox, Stopped, Trapped, World, _bytes, _library, _views, _word


class Console:
    """What a console keeps of each sandbox of a world: its output, how far it has read the input, and its mailbox."""

    def __init__(self, world: World, given: bytes = b"") -> None:
        """A console in which each sandbox reads the bytes `given` from their beginning. Raises MemoryError where there is no
        memory for it."""
        given = _bytes(given)
        self._raw, self._calls, self._process = _library.Console(), world._calls, os.getpid()
        self._at = ctypes.byref(self._raw)
        self.world = world
        if not self._calls["console_new"](len(world), given, len(given), self._at):
            raise MemoryError("there was no memory for the console")

    def __del__(self) -> None:
        if hasattr(self, "world") and os.getpid() == self._process:
            self._calls["console_free"](self._at)

    @property
    def output(self) -> list[bytes]:
        """What each sandbox has put."""
        with self.world._lock:
            return [self._output(number) for number in range(len(self.world))]

    def _output(self, number: int) -> bytes:
        count = self._calls["console_written"](self._at, number)
        room = ctypes.create_string_buffer(count or 1)
        self._calls["console_read"](self._at, number, 0, room, count)
        return room.raw[:count]

    def serve(self, call: Call) -> bool:
        """Replies to a call. Whether the turn goes on."""
        self.turn(call._now(), 1)
        return call.service not in (0, 3)

    def turn(self, sandbox: Sandbox, steps: int) -> None:
        """A turn of at most `steps` steps, which ends at a yield, too. A call that comes when they are used is served in the
        next turn. Raises MemoryError where there is no memory for what is put: then the sandbox stands at that call."""
        world = self.world
        world._made_here()
        with world._lock:
            _views.release(world)
            is_done = self._calls["console_turn"](self._at, world._at, sandbox._place(), _word(steps))
            sandbox._seat.gone_on = next(world._moves)
        if not is_done:
            raise MemoryError("there was no memory for what a sandbox put")

    def rounds(self, count: int, steps: int) -> None:
        """COUNT rounds of a turn of each sandbox, as `sfi run --rounds COUNT --quantum STEPS` has them."""
        for _ in range(count):
            for sandbox in self.world:
                self.turn(sandbox, steps)

    def line(self, sandbox: Sandbox) -> str:
        """What `sfi run` prints of a sandbox."""
        event = sandbox.event
        if isinstance(event, Exited):
            state = f"exit={event.number}"
        elif isinstance(event, Trapped):
            state = f"trap={event.cause.name.capitalize()} at={event.address:08x}"
        else:
            assert not isinstance(event, Stopped)  # a console stops nobody
            state = "ready"
        return f"sandbox={sandbox.number} {state} steps={sandbox.steps} out={self._output(sandbox.number).hex()}"
