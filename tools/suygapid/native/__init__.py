"""The host by which `sfi exec` and sfi-exec run native code, for Linux on x86-64: exec.c, and how it is built and started. Where it
can't be built, or can't run an image, the program sfi goes step by step."""
import contextlib
import os
import platform
import shutil
import subprocess
import sys
import tempfile
from typing import Optional, Sequence

from suygapid import TOP

HERE = os.path.dirname(os.path.abspath(__file__))
SOURCE, HOST = os.path.join(HERE, "exec.c"), os.path.join(HERE, "out", "exec")
INCLUDED = tuple(os.path.join(TOP, "crates", it, "include") for it in ("sfi_native", "sfi_translate", "sfi_run", "sfi_c"))
FLAGS = ("-std=gnu11", "-O2", "-Wall", "-Wextra", "-Wno-unused-function")
LOADED = b"loaded\n"  # what the host tells first of an image that it can run
NO_BUDGET = str((1 << 64) - 1)


def is_possible() -> bool:
    """Whether this machine runs such code."""
    return sys.platform == "linux" and platform.machine() == "x86_64"


def is_ready() -> bool:
    """Whether the host is built, and this machine can start it."""
    return is_possible() and os.access(HOST, os.X_OK)


def is_fresh() -> bool:
    """Whether the host is newer than all that it is made of, and how."""
    sources = [SOURCE, os.path.abspath(__file__), *(os.path.join(folder, it) for folder in INCLUDED for it in os.listdir(folder))]
    return is_ready() and all(os.path.getmtime(it) <= os.path.getmtime(HOST) for it in sources)


def make(anew: bool = False) -> Optional[str]:
    """Builds the host, where this machine runs it and has a compiler and the headers, unless it is newer than these, or `anew`. Returns
    its path, or None where there is none."""
    compiler = os.environ.get("CC") or next((it for it in ("gcc", "clang") if shutil.which(it)), None)
    if is_possible() and compiler is not None and all(os.path.isdir(it) for it in INCLUDED) and (anew or not is_fresh()):
        os.makedirs(os.path.dirname(HOST), exist_ok=True)
        fresh = f"{HOST}.{os.getpid()}"
        subprocess.run([compiler, *FLAGS, *(f"-I{it}" for it in INCLUDED), SOURCE, "-o", fresh], check=True)
        os.replace(fresh, HOST)
    return HOST if is_ready() else None


def program_words(program: str) -> list[str]:
    """The words that run the program sfi, with `exec` by native code where the host is there or can be built."""
    with contextlib.suppress(OSError, subprocess.SubprocessError):  # of a folder that can't be written, or a compiler
        make()
    return [HOST, "--program", program] if is_ready() else [program]


def run(program: str, image: bytes, options: Sequence[str], budget: Optional[str]) -> Optional[tuple[int, bytes]]:
    """Runs an image by native code that the program sfi makes, with these options of exec.c: the status, and what is told of a run that
    didn't exit. None where the image isn't accepted, or can't be run so."""
    begin = program_words(program)
    if not is_ready():
        return None
    reading, writing = os.pipe()
    with open(reading, "rb") as told, tempfile.NamedTemporaryFile() as file:
        file.write(image)
        file.flush()
        words = [*begin, "--told", str(writing), file.name, budget or NO_BUDGET, *options]
        with subprocess.Popen(words, pass_fds=[writing]) as host:
            os.close(writing)
            said = told.read()
        return (host.returncode, said.removeprefix(LOADED)) if said.startswith(LOADED) else None
