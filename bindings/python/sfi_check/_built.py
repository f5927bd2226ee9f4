"""Of what the checker was built: the version, the commit of the repository, and the logic in which its proofs were checked."""
from __future__ import annotations

import functools
import hashlib
import json
import os
import pathlib
import subprocess
from typing import Optional

from . import _library

FILE = "built.json"  # in this package, as pip installs it, and at the top of a release or an installation
TOP = list(_library.PACKAGE.parents)[:3][-1]  # of a checkout, a release or an installation
STATED = "SUYGAPID_COMMIT"  # in the environment
UNKNOWN = "unknown"


def _said(*words: str) -> Optional[str]:
    """What a command of the checkout says, if it is there and succeeds."""
    try:
        return subprocess.run(words, cwd=TOP, capture_output=True, text=True, check=True).stdout.strip()
    except (OSError, subprocess.CalledProcessError):
        return None


def _commit(made: pathlib.Path) -> str:
    """The checkout's commit, with the beginning of the SHA-256 of what was built, since nothing here says that it was built of this
    commit; or what a release states, which is made of its commit alone."""
    if STATED in os.environ:
        return os.environ[STATED]
    commit = _said("git", "rev-parse", "--short=12", "HEAD")
    digest = hashlib.sha256(made.read_bytes()).hexdigest()[:12] if made.is_file() else UNKNOWN
    return f"{commit or UNKNOWN}+{digest}"


def _logic() -> str:
    """That of the toolchain, the last word of what it says."""
    return (_said("rt", "version") or UNKNOWN).split()[-1]


def _version() -> str:
    number = _library.default().version()
    return f"{number >> 16}.{number >> 8 & 255}.{number & 255}"


def noted(made: Optional[str] = None) -> str:
    """The text of FILE, for what packs this package: commit and logic, as they were noted or as the checkout tells of what was built
    there, the library if nothing else is named."""
    for folder in (_library.PACKAGE, TOP):
        file = pathlib.Path(folder, FILE)
        if file.is_file():
            return file.read_text(encoding="utf-8")
    is_checkout = (TOP / "crates.txt").is_file()
    return json.dumps({"commit": _commit(pathlib.Path(made or _library.places()[0])) if is_checkout else UNKNOWN, "logic": _logic() if is_checkout else UNKNOWN}) + "\n"


@functools.lru_cache(maxsize=None)
def built() -> dict[str, str]:
    return {"version": _version(), **json.loads(noted())}


def words() -> str:
    """The same as a line has it."""
    return line_of(built())


def line_of(told: dict[str, str]) -> str:
    return " ".join(f"{name}={value}" for name, value in told.items())
