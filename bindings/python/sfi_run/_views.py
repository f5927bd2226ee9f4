"""Views of a sandbox's data, where it runs by native code. The interpreter has pages of its own."""
from __future__ import annotations

import ctypes
import weakref
from typing import Any

# The calls by which data change under a view, or go.
ENDING = frozenset(("turn", "until", "reset", "remove"))


class _Bytes(ctypes.Array[ctypes.c_ubyte]):
    """Bytes of a world, which stays as long as they are used."""
    _type_, _length_ = ctypes.c_ubyte, 0


def shown(world: Any, at: int, count: int) -> memoryview:
    """A view of so many bytes at an address of this process, which are the world's."""
    kind: Any = type("Bytes", (_Bytes,), {"_length_": count})
    source = kind.from_address(at)
    source.world = world
    view = memoryview(source).cast("B")
    world._views.append((weakref.ref(view), weakref.ref(source)))
    return view


def release(world: Any) -> None:
    """Releases the views of a world. Raises BufferError where something else, as a slice of one, still uses its bytes."""
    for view, _ in world._views:
        held = view()
        if held is not None:
            held.release()
        del held
    world._views = [it for it in world._views if it[1]() is not None]
    if world._views:
        raise BufferError("a slice of a view, or what was made of one, still uses the sandbox's data: release it before")
