"""What a sandbox of `sfi_run.files` can't go beyond, and how much of that it has used."""
from __future__ import annotations

import errno
import os
from collections.abc import Callable
from dataclasses import dataclass
from typing import TypeVar

from ._folders import error

Made = TypeVar("Made")


@dataclass(frozen=True)
class Limits:
    """What a sandbox can't go beyond: a call that would fails."""
    streams: int = 64  # files that are open at once
    path: int = 1024  # bytes of a path
    call: int = 65536  # bytes that a call reads or writes
    size: int = (1 << 31) - 1  # bytes of a file that it makes longer, and the last place in a file
    growth: int = 1 << 30  # bytes that its files have, in all, beyond what was there at first
    entries: int = 10_000  # files and folders that it makes, less those that it removes
    numbers: int = 65_535  # files whose status it asks for
    text: int = 65_536  # bytes of its words and its environment


class Use:
    """How much is used."""

    def __init__(self, limits: Limits) -> None:
        self.limits = limits
        self._growth = self._entries = 0
        self._numbers: dict[tuple[int, int], int] = {}

    def resize(self, status: os.stat_result, size: int) -> None:
        """Takes what a file lacks to be that long. Raises the error where it can't be."""
        if size > self.limits.size:
            raise error(errno.EFBIG)
        more = max(0, size - status.st_size)
        if more > self.limits.growth - self._growth:
            raise error(errno.ENOSPC)
        self._growth += more

    def shrink(self, status: os.stat_result, size: int = 0) -> None:
        """Gives back what a file had on the disk beyond that size. What was there at first counts as nothing."""
        freed = min(status.st_size, status.st_blocks * 512) - size
        self._growth = max(0, self._growth - max(0, freed))

    def made(self, make: Callable[[], Made]) -> Made:
        """Makes a file or a folder, if there may be one more."""
        if self._entries >= self.limits.entries:
            raise error(errno.ENOSPC)
        found = make()
        self._entries += 1
        return found

    def removed(self) -> None:
        self._entries = max(0, self._entries - 1)

    def number(self, status: os.stat_result) -> int:
        """The number of a file: the first one is 1. A sandbox doesn't learn the host's own."""
        file = (status.st_dev, status.st_ino)
        if file not in self._numbers and len(self._numbers) >= self.limits.numbers:
            raise error(errno.EOVERFLOW)
        return self._numbers.setdefault(file, len(self._numbers) + 1)
