"""Says whether images of sandboxes are accepted, by Suygapid's proved checker, and runs nothing of them.

    import sfi_check

    verdict = sfi_check.check(image)          # the image's own bytes
    print(verdict.accepted, verdict)          # False refused findings=1 first=V5 sandbox=0 at=01000048
    for judged in map(sfi_check.check_file, paths):
        print(judged.json())                  # file, SHA-256, verdict, and of what the checker was built

`python3 -m sfi_check FILE..` is the command sfi-check, `python3 -m sfi_check.corpus` sfi-corpus, which judges any number of files
and keeps the verdicts.
"""
from __future__ import annotations

import ctypes
import hashlib
import json
import os
from collections.abc import Mapping
from dataclasses import dataclass
from typing import Any, Optional, Union

from . import _library
from ._built import built, words as built_words

__all__ = ["FAULTS", "Finding", "Judged", "Verdict", "built", "check", "check_bytes", "check_file"]
__version__ = "0.1.0"

FAULTS = ("", "Magic", "Count", "Short", "Code", "Data", "GuardRoom", "Start", "Gates", "Init", "Overlap", "Trailing")
ACCEPTED, REFUSED, NO_IMAGE = 0, 1, 2  # a verdict's statuses
NO_MEMORY, NOT_READ = 4, 5  # those of a file that has none


@dataclass(frozen=True)
class Finding:
    """A rule that is broken, 1 for V1 and so on, and where: the sandbox, and the address of the instruction's first byte, or of the
    bytes that are none; for V9 that of the gate."""
    sandbox: int
    address: int
    rule: int


@dataclass(frozen=True)
class Verdict:
    """What the checker says of bytes: what its status doesn't speak of is 0, or nothing."""
    status: int
    sandboxes: int = 0
    bundles: int = 0
    findings: int = 0
    first: Optional[Finding] = None
    fault: int = 0

    @property
    def accepted(self) -> bool:
        return self.status == ACCEPTED

    def __str__(self) -> str:
        """The line of `sfi check`."""
        if self.first:
            place = f"first=V{self.first.rule} sandbox={self.first.sandbox} at={self.first.address:08x}"
            return f"refused findings={self.findings} {place}"
        return f"layout fault {self.fault} {FAULTS[self.fault]}" if self.fault else \
            f"accepted sandboxes={self.sandboxes} bundles={self.bundles}"

    def fields(self) -> dict[str, Any]:
        """What is known, for JSON: the line, and what it says."""
        told: dict[str, Any] = {"verdict": str(self)}
        if self.first:
            told.update(findings=self.findings, rule=f"V{self.first.rule}", sandbox=self.first.sandbox, at=f"{self.first.address:08x}")
        elif self.fault:
            told["fault"] = FAULTS[self.fault]
        else:
            told.update(sandboxes=self.sandboxes, bundles=self.bundles)
        return told


def check(image: bytes) -> Verdict:
    """The verdict on an image's own bytes (`bytes.fromhex` of what `sfi build` prints). OSError where there is no library."""
    raw = _library.Verdict()
    status = _library.default().check(image, len(image), ctypes.byref(raw))
    if status == ACCEPTED:
        return Verdict(status, raw.sandboxes, raw.bundles)
    if status == REFUSED:
        return Verdict(status, findings=raw.findings, first=Finding(raw.sandbox, raw.address, raw.rule))
    return Verdict(status, fault=raw.layout_fault)


@dataclass(frozen=True)
class Judged:
    """A file, with the SHA-256 of the bytes that were read, and their verdict, unless it was known; or why there is none."""
    file: str
    sha256: str = ""
    verdict: Optional[Verdict] = None
    failure: str = ""
    status: int = NOT_READ  # that of the verdict, or NO_MEMORY or NOT_READ

    def __str__(self) -> str:
        """A line, with the file last; in quotes, as JSON has it, where it holds what can't be printed."""
        name = self.file if self.file.isprintable() else json.dumps(self.file)
        said = f"{self.verdict} sha256={self.sha256}" if self.verdict else f"not judged: {self.failure}"
        return f"{said} {built_words()} file={name}"

    def json(self) -> str:
        """A line of JSON."""
        told = {"sha256": self.sha256, **self.verdict.fields()} if self.verdict else {"failure": self.failure}
        return json.dumps({"file": self.file, "status": self.status, **told, **built()})


def check_file(path: Union[str, os.PathLike[str]], known: Mapping[str, int] = {}) -> Judged:
    """Reads a file once, and judges these bytes, unless their SHA-256 is in `known`, which tells the status then. It raises nothing
    where the file can't be read."""
    name = os.fspath(path)
    try:
        with open(path, "rb") as file:
            return check_bytes(name, file.read(), known)
    except OSError as error:
        return Judged(name, failure=error.strerror or str(error))
    except MemoryError:
        return Judged(name, failure="there is no memory for it", status=NO_MEMORY)


def check_bytes(name: str, image: bytes, known: Mapping[str, int] = {}) -> Judged:
    """The same of bytes that were read from a file of that name."""
    sha256 = hashlib.sha256(image).hexdigest()
    if sha256 in known:
        return Judged(name, sha256, status=known[sha256])
    verdict = check(image)
    return Judged(name, sha256, verdict, status=verdict.status)
