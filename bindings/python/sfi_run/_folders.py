"""Folders of the host that a sandbox sees, and where its paths lead below them: each folder on the way is opened by itself, below the
one before it, and neither `..` nor a link is followed. So no rename beside it makes a path lead out. `openat2` does
the same in one call, on Linux alone; to remove or rename wants the last folder's descriptor anyway.

A folder that is listed as read-only is so by each path that leads through it, from another listed folder, too. No folder that is listed,
or above one, is renamed, replaced or removed."""
from __future__ import annotations

import contextlib
import errno
import os
import stat
from collections.abc import Iterator, Sequence
from dataclasses import dataclass

OTHER, FILE, FOLDER = range(3)  # kinds

_SEARCHED = getattr(os, "O_PATH", os.O_RDONLY) | os.O_DIRECTORY | os.O_NOFOLLOW | os.O_CLOEXEC


def error(number: int) -> OSError:
    return OSError(number, os.strerror(number))


@dataclass(frozen=True)
class Folder:
    """A folder of the host, the absolute path by which a sandbox knows it, and whether nothing in it may change."""
    path: str
    name: str = "/"
    is_read_only: bool = False


@dataclass(frozen=True)
class Place:
    """Where a path leads: the folder's descriptor, and the last part of the path in it, which is empty where that is a listed folder
    itself."""
    at: int
    name: bytes
    is_read_only: bool

    def check_change(self) -> None:
        """Raises the error of a change that isn't allowed here."""
        if self.is_read_only:
            raise error(errno.EROFS)
        if not self.name:
            raise error(errno.EBUSY)

    def status(self) -> os.stat_result:
        return os.stat(self.name, dir_fd=self.at, follow_symlinks=False) if self.name else os.fstat(self.at)


def kind(status: os.stat_result) -> int:
    return FILE if stat.S_ISREG(status.st_mode) else FOLDER if stat.S_ISDIR(status.st_mode) else OTHER


def identity(status: os.stat_result) -> tuple[int, int]:
    """The device and the number by which the host knows a file."""
    return status.st_dev, status.st_ino


def check_file(status: os.stat_result) -> None:
    """Raises the error of what can't be opened: only files can."""
    if kind(status) != FILE:
        raise error(errno.EISDIR if kind(status) == FOLDER else errno.EACCES)


def _parts(path: bytes) -> tuple[bytes, ...]:
    return tuple(part for part in path.split(b"/") if part not in (b"", b"."))


def _opened_below(at: int, part: bytes) -> int:
    """A folder of that name in another, which is opened. Raises EACCES where it is a link."""
    try:
        return os.open(part, _SEARCHED, dir_fd=at)
    except OSError as refused:
        if refused.errno in (errno.ENOTDIR, errno.ELOOP) and stat.S_ISLNK(os.stat(part, dir_fd=at, follow_symlinks=False).st_mode):
            raise error(errno.EACCES) from None
        raise


def _upwards(at: int) -> Iterator[tuple[int, int]]:
    """An open folder, and those above it."""
    path, below = ".", None
    while (found := identity(os.stat(path, dir_fd=at))) != below:
        yield found
        path, below = path + "/..", found


@dataclass(frozen=True)
class _Root:
    """A listed folder: the parts of its name, its descriptor, and the host's name for it."""
    parts: tuple[bytes, ...]
    at: int
    is_read_only: bool
    identity: tuple[int, int]


class Folders:
    """Those that are listed, opened."""

    def __init__(self, folders: Sequence[Folder]) -> None:
        """Raises OSError where one can't be opened, and ValueError where a name isn't absolute or has `..`, or two have one name."""
        self._roots: list[_Root] = []
        try:
            for folder in folders:
                self._add(folder)
        except BaseException:
            self.close()
            raise
        self._roots.sort(key=lambda root: -len(root.parts))  # the longest name goes first

    def _add(self, folder: Folder) -> None:
        name = os.fsencode(folder.name)
        parts = _parts(name)
        if not name.startswith(b"/") or b".." in parts or b"\0" in name:
            raise ValueError(f"{folder.name!r} is no absolute path without `..`")
        if any(root.parts == parts for root in self._roots):
            raise ValueError(f"two folders have the name {folder.name!r}")
        at = os.open(folder.path, os.O_RDONLY | os.O_DIRECTORY | os.O_CLOEXEC)
        self._roots.append(_Root(parts, at, folder.is_read_only, identity(os.fstat(at))))

    def close(self) -> None:
        while self._roots:
            os.close(self._roots.pop().at)

    @contextlib.contextmanager
    def place(self, path: bytes) -> Iterator[Place]:
        """Where a path leads, for as long as it is asked. Raises EACCES where that is in none of the folders."""
        parts = _parts(path)
        root = next((root for root in self._roots if parts[:len(root.parts)] == root.parts), None)
        if root is None or b".." in parts:
            raise error(errno.EACCES)
        *above, name = parts[len(root.parts):] or (b"",)
        at, is_read_only = os.dup(root.at), root.is_read_only
        try:
            for part in above:
                below = _opened_below(at, part)
                os.close(at)
                at = below
                is_read_only = is_read_only or self._is_read_only(at)
            yield Place(at, name, is_read_only)
        finally:
            os.close(at)

    def _is_read_only(self, at: int) -> bool:
        """Whether an open folder is one that is listed as read-only."""
        found = identity(os.fstat(at))
        return any(root.is_read_only and root.identity == found for root in self._roots)

    def check_free(self, place: Place) -> None:
        """Raises EBUSY where a place has a listed folder, or one above it."""
        try:
            status = place.status()
        except OSError:  # nothing is there
            return
        if kind(status) == FOLDER and any(identity(status) in _upwards(root.at) for root in self._roots):
            raise error(errno.EBUSY)
