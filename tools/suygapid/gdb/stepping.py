"""Runs of a sandbox step by step, which end where pc leaves a range or some bytes change.

The library of the runtime tells neither. So each step is a turn of its own, in C where this machine has a compiler, and else
in Python."""
from __future__ import annotations

import ctypes
import os
import shutil
from collections.abc import Sequence
from dataclasses import dataclass
from functools import lru_cache
from typing import Any, Optional

from sfi_run import Ready, Sandbox
from suygapid.cc.compilers import Failed, ran, version
from suygapid.kept import kept

Place = tuple[int, int]  # the address of some bytes, and their number
Range = tuple[int, int]  # the first address, and the one after the last
SOURCE = os.path.join(os.path.dirname(__file__), "stepping.c")
COMPILERS = ("cc", "gcc", "clang")
LIBRARY = "stepping.so"
FAR, NEAR, NEAREST = 1000000, 500000, 1000  # the most steps of a run: of the library's own, in C and in Python


class _Place(ctypes.Structure):
    _fields_ = [("at", ctypes.c_uint32), ("count", ctypes.c_uint32), ("before", ctypes.c_char_p), ("now", ctypes.c_void_p)]


class _Stops(ctypes.Structure):
    _fields_ = [("count", ctypes.c_size_t), ("at", ctypes.c_void_p), ("first", ctypes.c_uint32), ("end", ctypes.c_uint32),
                ("places", ctypes.c_size_t), ("place", ctypes.c_void_p)]


@lru_cache(maxsize=None)
def in_c() -> Optional[Any]:
    """The function of stepping.c, which is compiled once; None where there is no compiler."""
    compiler = next(filter(shutil.which, COMPILERS), None)
    if compiler is None:
        return None
    with open(SOURCE, encoding="utf-8") as file:
        text = file.read()

    def make(folder: str) -> None:
        ran([str(compiler), "-std=c99", "-O2", "-shared", "-fPIC", "-o", os.path.join(folder, LIBRARY), SOURCE])

    try:
        function = ctypes.CDLL(os.path.join(kept("stepping", [text, version(compiler)], make), LIBRARY)).suygapid_step
    except (Failed, OSError):
        return None
    function.restype = None
    return function


@dataclass(frozen=True)
class Until:
    """Where a run ends: before an instruction at one of some addresses, after a step that changes the bytes of a place, or one
    that leaves a range."""
    stops: Sequence[int] = ()
    places: Sequence[Place] = ()
    within: Optional[Range] = None

    def run(self, box: Sandbox, steps: int) -> None:
        """Makes at most so many steps, and no more than one look for an interrupt may wait for."""
        function = in_c()
        if not self.places and not self.within:
            box.until(self.stops, min(steps, FAR))
        elif function:
            step_in_c(function, box, self, min(steps, NEAR))
        else:
            step_in_python(box, self, min(steps, NEAREST))


def step_in_c(function: Any, box: Sandbox, until: Until, steps: int) -> None:
    world = box._world  # what the package keeps for itself: the library's world, and its calls
    before = [box.read(*place) for place in until.places]
    rooms = [ctypes.create_string_buffer(max(1, count)) for _, count in until.places]
    places = (_Place * max(1, len(rooms)))(*(_Place(*place, content, ctypes.addressof(room))
                                             for place, content, room in zip(until.places, before, rooms)))
    stops = (ctypes.c_uint32 * max(1, len(until.stops)))(*sorted(until.stops))
    first, end = until.within or (0, 0)
    wanted = _Stops(len(until.stops), ctypes.addressof(stops), first, end, len(rooms), ctypes.addressof(places))
    with world._lock:
        function(world._at, ctypes.c_uint32(box.number), world._calls["turn"], world._calls["read"], ctypes.byref(wanted),
                 ctypes.c_uint32(steps))


def step_in_python(box: Sandbox, until: Until, steps: int) -> None:
    before, within = [box.read(*place) for place in until.places], until.within
    for _ in range(steps):
        event, pc = box.turn(1), box.pc
        if not isinstance(event, Ready) or pc in until.stops or within and not within[0] <= pc < within[1]:
            return
        if [box.read(*place) for place in until.places] != before:
            return
