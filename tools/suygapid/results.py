"""Results that are kept by what they were made of, in the folder `results` of what kept.py has.

A result is a file of its own, named by the digest of all that it depends on, and begins with its own digest: one that is
damaged is made again. It is whole as soon as it is there, so that any number of runs may read and write at once. Where the
folder can't be written, nothing is kept."""
import contextlib
import hashlib
import os
import tempfile
import zlib
from typing import Callable, Iterable, Optional

from suygapid import kept as folders

MOST = 1 << 25  # bytes of each of 16 folders; what was read last stays
DIGEST = hashlib.sha256().digest_size


def root() -> str:
    return os.path.join(folders.root(), "results")


def place_of(parts: Iterable[bytes]) -> str:
    """The path of a result that is made of these bytes."""
    name = hashlib.sha256(b"".join(hashlib.sha256(part).digest() for part in parts)).hexdigest()
    return os.path.join(root(), name[0], name[1:])


def read(path: str) -> Optional[bytes]:
    """A result that is there and whole."""
    try:
        with open(path, "rb") as file:
            digest, packed = file.read(DIGEST), file.read()
        with contextlib.suppress(OSError):
            os.utime(path)
    except OSError:
        return None
    return zlib.decompress(packed) if hashlib.sha256(packed).digest() == digest else None


def write(path: str, content: bytes) -> None:
    packed, folder = zlib.compress(content, 1), os.path.dirname(path)
    if len(packed) > MOST // 2:
        return
    with contextlib.suppress(OSError):
        os.makedirs(folder, exist_ok=True)
        make_room(folder, MOST - len(packed))
        with tempfile.NamedTemporaryFile(dir=folder, delete=False) as file:
            file.write(hashlib.sha256(packed).digest() + packed)
        os.replace(file.name, path)


def make_room(folder: str, most: int) -> None:
    """Removes what was read longest ago, so that the rest of a folder has so many bytes at most."""
    found = [(entry.stat(), entry.path) for entry in os.scandir(folder)]
    size = sum(status.st_size for status, _ in found)
    for status, path in sorted(found, key=lambda one: one[0].st_mtime_ns):
        if size <= most:
            break
        os.remove(path)
        size -= status.st_size


def kept(parts: Iterable[bytes], make: Callable[[], bytes]) -> bytes:
    """What `make` answers, or answered to another run; the parts are all that this depends on."""
    path = place_of(parts)
    found = read(path)
    if found is None:
        found = make()
        write(path, found)
    return found
