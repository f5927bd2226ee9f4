"""Finds files, and judges them a batch at a time: the work of `sfi-corpus check`."""
from __future__ import annotations

import itertools
import os
from collections.abc import Callable, Iterable, Iterator
from dataclasses import dataclass, field
from typing import Optional

from .. import Judged, check_bytes, check_file
from .._built import words

BATCH = 250  # files: a batch takes some milliseconds
MOST_SENT = 1 << 19  # bytes of a batch that has more than one file


@dataclass(frozen=True)
class Batch:
    """Files of a batch, each with its bytes where the workers can't read it, and the statuses that are known, by SHA-256."""
    files: list[tuple[str, Optional[bytes]]]
    known: dict[str, int] = field(default_factory=dict)


@dataclass(frozen=True)
class Answer:
    """What became of a batch, and of what the checker that judged was built."""
    judged: list[Judged]
    built: str


def judged(batch: Batch) -> Answer:
    """What a worker does."""
    return Answer([check_file(name, batch.known) if data is None else check_bytes(name, data, batch.known)
                   for name, data in batch.files], words())


def found(names: Iterable[str]) -> Iterator[str]:
    """The files below folders, in the order of their names, and other names as they are, also of what isn't there."""
    for name in names:
        yield from _below(name) if os.path.isdir(name) else [name]


def _below(folder: str) -> Iterator[str]:
    """Pipes and devices, of which a read may never end, are left out. What a link leads to may be missing. A folder that can't be
    listed stands for itself, as a file that can't be read."""
    try:
        with os.scandir(folder) as listed:
            entries = sorted(listed, key=lambda it: it.name)
    except OSError:
        yield folder
        return
    for it in entries:
        if it.is_dir(follow_symlinks=False):
            yield from _below(it.path)
        elif it.is_file() or it.is_symlink() and not os.path.exists(it.path):
            yield it.path


def batches(files: Iterable[str], known_of: Callable[[list[str]], dict[str, int]], size: int = BATCH) -> Iterator[Batch]:
    """The files by their names, which the workers read. `known_of` tells what is known of some."""
    waiting = iter(files)
    while some := list(itertools.islice(waiting, size)):
        yield Batch([(name, None) for name in some], known_of(some))


def with_bytes(those: Iterable[Batch], failed: Callable[[Judged], None]) -> Iterator[Batch]:
    """The same with their bytes, in batches of a length that a scheduler takes. `failed` gets the files that can't be read here."""
    for batch in those:
        read: list[tuple[str, Optional[bytes]]] = []
        length = 0
        for name, _ in batch.files:
            try:
                with open(name, "rb") as file:
                    data = file.read()
            except OSError as error:
                failed(Judged(name, failure=error.strerror or str(error)))
                continue
            if read and length + len(data) > MOST_SENT:
                yield Batch(read, batch.known)
                read, length = [], 0
            read.append((name, data))
            length += len(data)
        yield Batch(read, batch.known)
