"""Images that are checked and decoded once, for many worlds:

    from sfi_run.modules import Module

    with Module(image) as module:
        plugins = [module.instance(log=print) for _ in range(1000)]
    print(plugins[0].add(2, 3))

Or its sandboxes are added to a world beside those of others: `world.add(module)`, and `world.remove(sandbox)`.

The worlds of a module share its decoded code, which nothing writes, and each has its data, registers and steps for itself. They
may be closed in any order, and after the module.
"""
from __future__ import annotations

import ctypes
import os
import threading
from collections.abc import Callable, Mapping
from types import TracebackType
from typing import Any

from . import Library, World, _bytes, _library, _limits, _make
from .names import Claims, Handler, Plugin, claims


class Module:
    """An image, checked and decoded. Any thread may use it, and its worlds: a lock sees to it that one call is made at a time. A
    forked child can't use that of its parent."""

    def __init__(self, image: bytes, library: Library | None = None) -> None:
        """Checks and decodes the image. Raises what World does."""
        self.image, self._calls = _bytes(image), library or _library.default()
        self._raw, self._lock, self._process = _library.Module(), threading.RLock(), os.getpid()
        self._at = ctypes.byref(self._raw)
        _make(self._calls["module_new"], self.image, self._at)
        self._is_open = True
        self._claims: dict[int, Claims] = {}  # of its sandboxes, as they are asked for

    def _made_here(self) -> None:
        if os.getpid() != self._process:
            raise RuntimeError("a module is used by the process that made it alone, and not by a forked child")

    def _used(self, use: Callable[[Any], Any]) -> Any:
        """What `use` makes of the module at the address that it is given."""
        self._made_here()
        with self._lock:
            if not self._is_open:
                raise ValueError("the module is closed")
            return use(self._at)

    def _make_world(self, at: Any) -> None:
        if not self._used(lambda module: self._calls["instance"](module, at)):
            raise MemoryError("there was no memory for a world of the module")

    def world(self) -> World:
        """A world of the image: what World makes of its bytes, and nothing is checked or decoded anew."""
        made = World.__new__(World)
        made._begin(self._calls, self._make_world)
        return made

    def instance(self, *, number: int = 0, steps: int = 1_000_000, signatures: Mapping[str, str] | None = None,
                 timeout: float | None = None, interrupt: _limits.Interrupt | None = None, **handlers: Handler) -> Plugin:
        """A plug-in in a world of its own: what Plugin makes of the image."""
        made = Plugin.__new__(Plugin)
        made.steps, made.timeout, made.interrupt = steps, timeout, interrupt
        made._begin(self.image, self._calls, self.world(), number, signatures, handlers, self._claims_of(number))
        made._start()
        return made

    def _claims_of(self, number: int) -> Claims:
        """Those of a sandbox. The table is read once."""
        found = self._claims.get(number)
        if found is None:
            found = self._claims[number] = claims(self.image, number, self._calls)
        return found

    def close(self) -> None:
        """Frees the module. Its worlds stay."""
        self._made_here()
        with self._lock:
            self._is_open = False
            self._calls["module_free"](self._at)

    def __enter__(self) -> Module:
        return self

    def __exit__(self, kind: type[BaseException] | None, value: BaseException | None, trace: TracebackType | None) -> None:
        self.close()

    def __del__(self) -> None:
        # A forked child has a copy of the memory, which ends with it.
        if getattr(self, "_is_open", False) and os.getpid() == self._process:
            self.close()
