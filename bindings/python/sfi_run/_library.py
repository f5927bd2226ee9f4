"""The shared library libsfi_run, as ctypes sees it: sfi_run.h says what each call does and what a caller owes."""
from __future__ import annotations

import ctypes
import operator
import os
import pathlib
from collections.abc import Callable, Sequence
from typing import Any

from sfi_check import _places

NAME = "libsfi_run.so"
PACKAGE = pathlib.Path(__file__).resolve().parent

_WORD = ctypes.c_uint32
_SIZE = ctypes.c_size_t
_BYTES = ctypes.c_char_p  # of a call that reads them
_ROOM = ctypes.c_void_p  # of a call that writes them


class World(ctypes.Structure):
    """`struct sfi_run_world`, which begins as zeros."""
    _fields_ = [("held", _WORD), ("at", ctypes.c_void_p)]


class Module(ctypes.Structure):
    """`struct sfi_run_module`, which begins as zeros."""
    _fields_ = [("held", _WORD), ("at", ctypes.c_void_p)]


class Console(ctypes.Structure):
    """`struct sfi_run_console`, which begins as zeros."""
    _fields_ = [("held", _WORD), ("at", ctypes.c_void_p)]


class Verdict(ctypes.Structure):
    """`struct sfi_verdict` of sfi.h, with its `struct sfi_finding` as the last three."""
    _fields_ = [(name, _WORD) for name in ("status", "layout_fault", "sandboxes", "bundles", "findings", "sandbox", "address", "rule")]


class Event(ctypes.Structure):
    """`struct sfi_run_event`."""
    _fields_ = [(name, _WORD) for name in ("kind", "number", "gate", "pc", "a0", "a1", "a2", "a3", "a4", "a5", "a6", "a7")]


class Region(ctypes.Structure):
    """`struct sfi_run_region`."""
    _fields_ = [("base", _WORD), ("size", _WORD)]


class Registers(ctypes.Structure):
    """`struct sfi_run_registers`."""
    _fields_ = [("pc", _WORD), ("x", _WORD * 32)]


Arguments = _WORD * 8

_WORLD = ctypes.POINTER(World)
_MODULE = ctypes.POINTER(Module)
_CONSOLE = ctypes.POINTER(Console)
_EVENT = ctypes.POINTER(Event)
_CALLS: dict[str, tuple[Any, list[Any]]] = {
    "version": (_WORD, []),
    "load": (_WORD, [_BYTES, _SIZE, _WORLD, ctypes.POINTER(Verdict)]),
    "free": (None, [_WORLD]),
    "count": (_SIZE, [_WORLD]),
    "module_new": (_WORD, [_BYTES, _SIZE, _MODULE, ctypes.POINTER(Verdict)]),
    "module_free": (None, [_MODULE]),
    "instance": (ctypes.c_bool, [_MODULE, _WORLD]),
    "add": (_WORD, [_WORLD, _MODULE, ctypes.POINTER(_WORD)]),
    "remove": (_WORD, [_WORLD, _WORD]),
    "export": (_WORD, [_BYTES, _SIZE, _WORD, _BYTES, _SIZE, ctypes.POINTER(_WORD)]),
    "import": (_WORD, [_BYTES, _SIZE, _WORD, _BYTES, _SIZE, ctypes.POINTER(_WORD)]),
    "export_at": (_WORD, [_BYTES, _SIZE, _WORD, _WORD, _ROOM, ctypes.POINTER(_WORD), ctypes.POINTER(_WORD)]),
    "import_at": (_WORD, [_BYTES, _SIZE, _WORD, _WORD, _ROOM, ctypes.POINTER(_WORD), ctypes.POINTER(_WORD)]),
    "api": (_WORD, [_BYTES, _SIZE, _WORD, ctypes.POINTER(_WORD)]),
    "turn": (_WORD, [_WORLD, _WORD, _WORD, _EVENT]),
    "until": (_WORD, [_WORLD, _WORD, ctypes.POINTER(_WORD), _SIZE, _WORD, _EVENT]),
    "event": (_WORD, [_WORLD, _WORD, _EVENT]),
    "reply": (ctypes.c_bool, [_WORLD, _WORD, _WORD, _WORD]),
    "exit": (ctypes.c_bool, [_WORLD, _WORD, _WORD]),
    "read": (ctypes.c_bool, [_WORLD, _WORD, _WORD, _SIZE, _ROOM, _SIZE]),
    "write": (ctypes.c_bool, [_WORLD, _WORD, _WORD, _BYTES, _SIZE]),
    "stop": (ctypes.c_bool, [_WORLD, _WORD]),
    "reset": (ctypes.c_bool, [_WORLD, _WORD]),
    "enter": (ctypes.c_bool, [_WORLD, _WORD, _WORD, ctypes.POINTER(_WORD)]),
    "call_back": (ctypes.c_bool, [_WORLD, _WORD, _WORD, ctypes.POINTER(_WORD), ctypes.POINTER(Registers)]),
    "steps": (ctypes.c_uint64, [_WORLD, _WORD]),
    "registers": (ctypes.c_bool, [_WORLD, _WORD, ctypes.POINTER(Registers)]),
    "set_registers": (ctypes.c_bool, [_WORLD, _WORD, ctypes.POINTER(Registers)]),
    "console_new": (ctypes.c_bool, [_WORD, _BYTES, _SIZE, _CONSOLE]),
    "console_free": (None, [_CONSOLE]),
    "console_turn": (ctypes.c_bool, [_CONSOLE, _WORLD, _WORD, _WORD]),
    "console_written": (_SIZE, [_CONSOLE, _WORD]),
    "console_read": (ctypes.c_bool, [_CONSOLE, _WORD, _SIZE, _ROOM, _SIZE]),
    "data": (ctypes.c_bool, [_WORLD, _WORD, ctypes.POINTER(Region)]),
}


def word(value: int) -> int:
    """A number of 32 bits. ctypes would cut a larger one."""
    if not 0 <= value < 1 << 32:
        raise ValueError(f"{value} isn't a number from 0 to 2^32 - 1")
    return value


def arguments(given: Sequence[int]) -> Any:
    """a0 to a7. Those that are left are 0. A negative number is taken modulo 2^32."""
    if len(given) > 8:
        raise ValueError("there are at most eight arguments")
    return Arguments(*map(_argument, given))


def _argument(value: int) -> int:
    number = operator.index(value)
    if not -1 << 31 <= number < 1 << 32:
        raise ValueError(f"{value} isn't a number from -2^31 to 2^32 - 1")
    return number & 0xFFFFFFFF


def places() -> list[str]:
    """Where the library is, the first before the others."""
    return _places.places("sfi_run", PACKAGE)


def _version_number() -> int:
    """`SFI_RUN_VERSION_NUMBER` of the header that this package goes by, which has to agree in major and minor."""
    from . import __version__
    return int.from_bytes(bytes(map(int, __version__.split("."))), "big")


def _other_version(handle: ctypes.CDLL) -> OSError:
    return OSError(f"{handle._name} is a library of another version than this package")


class Library:
    """A shared library: `library["load"]` is its call sfi_run_load."""

    def __init__(self, path: str | os.PathLike[str] | None = None) -> None:
        """Loads the library of that path, or else the one that `places` finds. OSError where there is none, or where it is of
        another version than this package."""
        try:
            handle = ctypes.CDLL(os.fspath(path) if path is not None else places()[0])
        except OSError as error:
            raise OSError(f"{error}; SFI_RUN_LIBRARY has to name the library, or ./install to have installed it") from error
        self._functions: dict[str, Callable[..., Any]] = {}
        for name, (result, arguments) in _CALLS.items():
            function = getattr(handle, f"sfi_run_{name}", None)
            if function is None:
                raise _other_version(handle)
            function.restype, function.argtypes = result, arguments
            self._functions[name] = function
        self.native_data: Callable[..., int] | None = getattr(handle, "sfi_native_data", None)  # of libsfi_run_native
        if self.native_data:
            self.native_data.restype, self.native_data.argtypes = ctypes.c_void_p, [_WORLD, _WORD]
        self.engine: Callable[..., int] | None = getattr(handle, "sfi_run_engine", None)  # of that, too
        if self.engine:
            self.engine.restype, self.engine.argtypes = _WORD, [_WORLD]
        if self["version"]() // 256 != _version_number() // 256:
            raise _other_version(handle)

    def __getitem__(self, name: str) -> Callable[..., Any]:
        return self._functions[name]


_loaded: Library | None = None


def default() -> Library:
    """The library that `places` finds, which is loaded once. OSError where there is none."""
    global _loaded
    if _loaded is None:
        _loaded = Library()
    return _loaded
