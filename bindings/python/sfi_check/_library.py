"""The shared library libsfi_c, as ctypes sees it: sfi.h says what each call does and what a caller owes."""
from __future__ import annotations

import ctypes
import pathlib
from typing import Optional

from . import _places

NAME = "libsfi_c.so"
PACKAGE = pathlib.Path(__file__).resolve().parent

_WORD = ctypes.c_uint32


class Verdict(ctypes.Structure):
    """`struct sfi_verdict`, with its `struct sfi_finding` as the last three."""
    _fields_ = [(name, _WORD) for name in ("status", "layout_fault", "sandboxes", "bundles", "findings", "sandbox", "address", "rule")]


def places() -> list[str]:
    """Where the library is, the first before the others."""
    return _places.places("sfi_c", PACKAGE)


class Library:
    """A shared library, with the types of its calls. Any number of threads may call it at once, and Python's lock is free
    meanwhile."""

    def __init__(self, path: Optional[str] = None) -> None:
        """Loads the library of that path, or else the one that `places` finds. OSError where there is none."""
        try:
            handle = ctypes.CDLL(path or places()[0])
        except OSError as error:
            raise OSError(f"{error}; SFI_C_LIBRARY has to name the library, or ./install to have installed it") from error
        self.version, self.check = handle.sfi_c_version, handle.sfi_c_check
        self.version.restype, self.version.argtypes = _WORD, []
        self.check.restype, self.check.argtypes = _WORD, [ctypes.c_char_p, ctypes.c_size_t, ctypes.POINTER(Verdict)]


_loaded: Optional[Library] = None


def default() -> Library:
    """The library that `places` finds, which is loaded once."""
    global _loaded
    if _loaded is None:
        _loaded = Library()
    return _loaded
