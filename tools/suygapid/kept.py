"""Folders that are made once and kept in $SUYGAPID_CACHE, or suygapid below $XDG_CACHE_HOME or ~/.cache. A release brings some."""
import contextlib
import fcntl
import hashlib
import os
import sys
import tempfile
from typing import Callable, Iterable, Iterator, Optional

from suygapid import TOOLS

RELEASED = os.path.join(TOOLS, "suygapid", "made")  # those that a release brings
told: list[str] = []  # what was said of folders that take long to make


def tell_once(text: str) -> None:
    """Says on standard error, before it begins, that something takes long: in one line of a run, however much does."""
    if not told:
        print(f"{os.path.basename(sys.argv[0])}: {text}", file=sys.stderr, flush=True)
    told.append(text)


def root() -> str:
    home = os.environ.get("XDG_CACHE_HOME") or os.path.join(os.path.expanduser("~"), ".cache")
    return os.environ.get("SUYGAPID_CACHE") or os.path.join(home, "suygapid")


def bytecode() -> str:
    """The folder where Python keeps what it compiles of modules that are read at each start."""
    return os.path.join(root(), "python")


def keep_bytecode() -> None:
    """From here on Python keeps there what it compiles of the modules that are imported, and takes it at the next start."""
    sys.pycache_prefix = sys.pycache_prefix or bytecode()
    sys.dont_write_bytecode = False


def name_of(name: str, words: Iterable[str]) -> str:
    """The name of a folder that is made of these words."""
    digest = hashlib.sha256("\0".join(words).encode("utf-8", "surrogateescape")).hexdigest()
    return f"{name}-{digest[:16]}"


def released(name: str) -> Optional[str]:
    """The folder of that name in a release, or None."""
    place = os.path.join(RELEASED, name)
    return place if os.path.isdir(place) else None


@contextlib.contextmanager
def alone(place: str) -> Iterator[None]:
    """Waits while another run makes what goes there, where files can be locked."""
    path = f"{place}.lock"
    with open(path, "w", encoding="ascii") as file:
        with contextlib.suppress(OSError):
            fcntl.flock(file, fcntl.LOCK_EX)
        try:
            yield
        finally:
            with contextlib.suppress(FileNotFoundError):
                os.remove(path)


def kept(name: str, words: Iterable[str], make: Callable[[str], object], long: Optional[str] = None) -> str:
    """The folder of a name that `make` fills; `words` are all that it is made of, so that another goes by another name;
    `long` is what to tell where it isn't there, if that takes long, beside where it is kept. It is whole as soon as it is there.
    Of two runs at once one makes it; where files can't be locked both may, and one of theirs stays."""
    whole = name_of(name, words)
    place = os.path.join(root(), whole)
    there = place if os.path.isdir(place) else released(whole)
    if there:
        return there
    if long:
        tell_once(f"{long}, once: kept in {place}")
    os.makedirs(root(), exist_ok=True)
    with alone(place), tempfile.TemporaryDirectory(dir=root(), prefix=f"{name}-new-") as room:
        if os.path.isdir(place):
            return place
        fresh = os.path.join(room, name)
        os.mkdir(fresh)
        make(fresh)
        try:
            os.rename(fresh, place)
        except OSError:
            if not os.path.isdir(place):
                raise
    return place
