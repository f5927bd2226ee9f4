"""Files below folders that the host lists, a clock, random bytes, and the words that a program is started with: a ready-made host for
programs that `sfi-cc --library files` linked, and for what else calls the gate `sfi_system` (docs/GATES.md has its operations).

    from sfi_run import World, files

    with World(image) as world, files.Files([files.Folder("work", "/work"), files.Folder("/usr/share/dict", "/dict", True)],
                                            words=["prog", "/work/list"]) as host:
        event = host.run(image, world[0])

A path leads nowhere but into these folders, and over no link. What is refused gets an error's number, and so does what the limits
don't allow. It wants a system with POSIX's calls.
"""
from __future__ import annotations

import errno
import fcntl
import os
import stat
import struct
import time
from collections import deque
from collections.abc import Callable, Mapping, Sequence
from dataclasses import dataclass
from types import TracebackType

from . import Call, Event, Library, OutsideData, Sandbox
from ._folders import Folder, Folders, Place, check_file, error, kind
from ._use import Limits, Use
from .names import NoName, imported

__all__ = ["Files", "Folder", "Limits"]

GATE = "sfi_system"  # the name of the import
FIRST = -0x10000 & 0xFFFFFFFF  # the first operation's number
READS, WRITES, CREATES, IS_NEW, EMPTIES, APPENDS = (1 << bit for bit in range(6))  # flags of an open
INPUT, OUTPUT, ERRORS = range(3)
FIRST_STREAM = 3
STATUS = "<4IQ"
EXIT, PUT, GET, YIELD, POST, TAKE = range(6)  # services
FAILED = 0xFFFFFFFF
MAILBOX = 16  # words
NO_END = 1 << 62  # steps

# The errors that are told, by newlib's numbers; any other is EIO.
NUMBERS = dict((
    ("EPERM", 1), ("ENOENT", 2), ("EIO", 5), ("EBADF", 9), ("ENOMEM", 12), ("EACCES", 13), ("EFAULT", 14), ("EBUSY", 16), ("EEXIST", 17),
    ("EXDEV", 18), ("ENOTDIR", 20), ("EISDIR", 21), ("EINVAL", 22), ("ENFILE", 23), ("EMFILE", 24), ("EFBIG", 27), ("ENOSPC", 28),
    ("ESPIPE", 29), ("EROFS", 30), ("EMLINK", 31), ("EPIPE", 32), ("ENOSYS", 88), ("ENOTEMPTY", 90), ("ENAMETOOLONG", 91), ("EDQUOT", 132),
    ("EOVERFLOW", 139)))

_OPENED = os.O_NOFOLLOW | os.O_CLOEXEC | os.O_NONBLOCK | os.O_NOCTTY


@dataclass(frozen=True)
class _Stream:
    descriptor: int
    file: tuple[int, int]  # the device and the number by which the host knows it


class Files:
    """What one sandbox has of a host: its streams, and how much it has used of its limits."""

    def __init__(self, folders: Sequence[Folder] = (), *, words: Sequence[str | bytes] = (), environment: Mapping[str, str] | None = None,
                 limits: Limits = Limits(), streams: tuple[int, int, int] = (0, 1, 2)) -> None:
        """Opens the folders; `streams` are the descriptors of standard input, output and error. Raises OSError where one can't be opened, and ValueError where a name isn't absolute or has `..`, two
        have one name, or the words and the environment are too long or have a byte 0."""
        self.limits, self._use, self._standard = limits, Use(limits), streams
        self._streams: dict[int, _Stream] = {}
        self._mailbox: deque[int] = deque()
        self._words = self._packed(words, environment or {})
        self._folders = Folders(folders)

    def _packed(self, words: Sequence[str | bytes], environment: Mapping[str, str]) -> bytes:
        texts = [os.fsencode(text) for text in (*words, *(f"{name}={value}" for name, value in environment.items()))]
        packed = struct.pack("<2I", len(words), len(environment)) + b"".join(text + b"\0" for text in texts)
        if len(packed) > self.limits.text or any(b"\0" in text for text in texts):
            raise ValueError("the words and the environment are too long, or have a byte 0")
        return packed

    def close(self) -> None:
        """Closes all streams and folders."""
        while self._streams:
            os.close(self._streams.popitem()[1].descriptor)
        self._folders.close()

    def __enter__(self) -> Files:
        return self

    def __exit__(self, kind: type[BaseException] | None, value: BaseException | None, trace: TracebackType | None) -> None:
        self.close()

    # ---- runs

    def run(self, image: bytes, sandbox: Sandbox, *, steps: int = NO_END, library: Library | None = None) -> Event:
        """Runs a sandbox of an image with the console's services over the standard streams, and with files, for at
        most that many steps. Answers how it stands then."""
        try:
            gate: int | None = imported(image, GATE, sandbox.number, library)
        except NoName:
            gate = None
        event: Event = sandbox.event
        for event in sandbox.events(steps):
            if not isinstance(event, Call):
                break
            if event.pc == gate:
                self.serve(event)
            else:
                self._console(event)
        return event

    def _console(self, call: Call) -> None:
        """Replies to a call of one of the console's services. docs/GATES.md has what they do."""
        if call.service == EXIT:
            call.exit(call.a0)
        elif call.service in (PUT, GET):
            call.reply(self._passed(call))
        elif call.service == POST:
            call.reply(self._posted(call))
        elif call.service == TAKE:
            call.reply(*((self._mailbox.popleft(), 1) if self._mailbox else (0, 0)))
        else:
            call.reply(call.a0)

    def _passed(self, call: Call) -> int:
        try:
            self._check_room(call.sandbox, call.a0, call.a1)
            if call.service == PUT:
                _write_all(self._standard[OUTPUT], call.sandbox.read(call.a0, call.a1))
                return call.a1
            given = os.read(self._standard[INPUT], call.a1) if call.a1 else b""
        except OSError as refused:
            if refused.errno not in (errno.EFAULT, errno.EINVAL):
                raise
            return FAILED
        call.sandbox.write(call.a0, given)
        return len(given)

    def _posted(self, call: Call) -> int:
        if call.a0 != 0:
            return FAILED
        if len(self._mailbox) == MAILBOX:
            return 1
        self._mailbox.append(call.a1)
        return 0

    def serve(self, call: Call) -> None:
        """Replies to a call of the gate `sfi_system`."""
        index = call.a0 - FIRST
        try:
            answer = self._OPERATIONS[index](self, call) if 0 <= index < len(self._OPERATIONS) else -NUMBERS["ENOSYS"]
        except OSError as refused:
            answer = -NUMBERS.get(errno.errorcode.get(refused.errno or 0, ""), NUMBERS["EIO"])
        except OutsideData:
            answer = -NUMBERS["EFAULT"]
        call.reply(answer & 0xFFFFFFFF)

    # ---- what a sandbox passes

    def _check_room(self, sandbox: Sandbox, at: int, length: int) -> None:
        """Raises the error of bytes that are too many, or don't lie in the sandbox's data."""
        region = sandbox.data
        if length > self.limits.call:
            raise error(errno.EINVAL)
        if not (length == 0 or region.base <= at <= at + length <= region.base + region.size):
            raise error(errno.EFAULT)

    def _path(self, call: Call, at: int, length: int) -> bytes:
        if length > self.limits.path:
            raise error(errno.ENAMETOOLONG)
        path = call.sandbox.read(at, length)
        if not path or b"\0" in path:
            raise error(errno.ENOENT if not path else errno.EINVAL)
        return path

    def _stream(self, number: int) -> _Stream:
        found = self._streams.get(number)
        if found is None:
            raise error(errno.EBADF)
        return found

    # ---- operations

    def _told_words(self, call: Call) -> int:
        if call.a2 >= len(self._words):
            call.sandbox.write(call.a1, self._words)
        return len(self._words)

    def _open(self, call: Call) -> int:
        flags, path = call.a3, self._path(call, call.a1, call.a2)
        changes = flags & (WRITES | CREATES | EMPTIES | APPENDS)
        if not flags & (READS | WRITES) or (changes and not flags & WRITES and flags & EMPTIES):
            raise error(errno.EINVAL)
        number = next(number for number in range(FIRST_STREAM, FIRST_STREAM + self.limits.streams + 1) if number not in self._streams)
        if number == FIRST_STREAM + self.limits.streams:
            raise error(errno.EMFILE)
        with self._folders.place(path) as place:
            if changes and place.is_read_only:
                raise error(errno.EROFS)
            if not place.name:
                raise error(errno.EISDIR)
            self._streams[number] = self._opened(place, flags, call.a4 & 0o666)
        return number

    def _opened(self, place: Place, flags: int, mode: int) -> _Stream:
        access = {READS: os.O_RDONLY, WRITES: os.O_WRONLY}.get(flags & (READS | WRITES), os.O_RDWR)
        wanted = access | _OPENED | (os.O_APPEND if flags & APPENDS else 0)

        def create() -> int:
            return os.open(place.name, wanted | os.O_CREAT | os.O_EXCL, mode, dir_fd=place.at)
        try:
            status = place.status()
            if flags & CREATES and flags & IS_NEW:
                raise error(errno.EEXIST)
            check_file(status)
            descriptor = os.open(place.name, wanted, dir_fd=place.at)
        except FileNotFoundError:
            if not flags & CREATES:
                raise
            descriptor = self._use.made(create)
        try:
            status = os.fstat(descriptor)
            check_file(status)
            if flags & EMPTIES:
                os.ftruncate(descriptor, 0)
                self._use.shrink(status)
        except BaseException:
            os.close(descriptor)
            raise
        return _Stream(descriptor, (status.st_dev, status.st_ino))

    def _close(self, call: Call) -> int:
        os.close(self._stream(call.a1).descriptor)
        del self._streams[call.a1]
        return 0

    def _read(self, call: Call) -> int:
        stream = self._stream(call.a1)
        self._check_room(call.sandbox, call.a2, call.a3)
        given = os.read(stream.descriptor, call.a3)
        call.sandbox.write(call.a2, given)
        return len(given)

    def _write(self, call: Call) -> int:
        self._check_room(call.sandbox, call.a2, call.a3)
        given = call.sandbox.read(call.a2, call.a3)
        if call.a1 == ERRORS:
            _write_all(self._standard[ERRORS], given)
            return len(given)
        stream = self._stream(call.a1)
        if not _is_to_write(stream.descriptor):
            raise error(errno.EBADF)
        if given:
            self._use.resize(os.fstat(stream.descriptor), _place_of_write(stream.descriptor) + len(given))
        return os.write(stream.descriptor, given)

    def _seek(self, call: Call) -> int:
        if INPUT <= call.a1 <= ERRORS:
            raise error(errno.ESPIPE)
        descriptor = self._stream(call.a1).descriptor
        if call.a3 > 2:
            raise error(errno.EINVAL)
        before = os.lseek(descriptor, 0, os.SEEK_CUR)
        after = os.lseek(descriptor, _signed(call.a2), (os.SEEK_SET, os.SEEK_CUR, os.SEEK_END)[call.a3])
        if after > self.limits.size:
            os.lseek(descriptor, before, os.SEEK_SET)
            raise error(errno.EOVERFLOW)
        return after

    def _tell_status(self, call: Call, at: int, status: os.stat_result) -> int:
        if status.st_size >= 1 << 31:
            raise error(errno.EOVERFLOW)
        number = self._use.number(status)
        links, modified = min(status.st_nlink, 0xFFFF), max(status.st_mtime_ns, 0)
        call.sandbox.write(at, struct.pack(STATUS, kind(status), number, links, status.st_size, modified))
        return 0

    def _status(self, call: Call) -> int:
        return self._tell_status(call, call.a2, os.fstat(self._stream(call.a1).descriptor))

    def _status_of(self, call: Call) -> int:
        with self._folders.place(self._path(call, call.a1, call.a2)) as place:
            status = place.status()
            if stat.S_ISLNK(status.st_mode):
                raise error(errno.EACCES)
            return self._tell_status(call, call.a3, status)

    def _truncate(self, call: Call) -> int:
        stream, size = self._stream(call.a1), call.a2
        if not _is_to_write(stream.descriptor):
            raise error(errno.EINVAL)
        before = os.fstat(stream.descriptor)
        self._use.resize(before, size)
        os.ftruncate(stream.descriptor, size)
        self._use.shrink(before, size)
        return 0

    def _sync(self, call: Call) -> int:
        os.fsync(self._stream(call.a1).descriptor)
        return 0

    def _unlink(self, call: Call) -> int:
        with self._folders.place(self._path(call, call.a1, call.a2)) as place:
            place.check_change()
            status = place.status()
            os.unlink(place.name, dir_fd=place.at)
        is_open = any(stream.file == (status.st_dev, status.st_ino) for stream in self._streams.values())
        if stat.S_ISREG(status.st_mode) and status.st_nlink == 1 and not is_open:
            self._use.shrink(status)
        self._use.removed()
        return 0

    def _rename(self, call: Call) -> int:
        with self._folders.place(self._path(call, call.a1, call.a2)) as place:
            place.check_change()
            with self._folders.place(self._path(call, call.a3, call.a4)) as there:
                there.check_change()
                self._folders.check_free(place)
                self._folders.check_free(there)
                os.rename(place.name, there.name, src_dir_fd=place.at, dst_dir_fd=there.at)
        return 0

    def _make_folder(self, call: Call) -> int:
        with self._folders.place(self._path(call, call.a1, call.a2)) as place:
            if not place.name:
                raise error(errno.EEXIST)
            place.check_change()
            self._use.made(lambda: os.mkdir(place.name, call.a3 & 0o777, dir_fd=place.at))
        return 0

    def _remove_folder(self, call: Call) -> int:
        with self._folders.place(self._path(call, call.a1, call.a2)) as place:
            place.check_change()
            self._folders.check_free(place)
            os.rmdir(place.name, dir_fd=place.at)
        self._use.removed()
        return 0

    def _clock(self, call: Call) -> int:
        if call.a1 > 1:
            raise error(errno.EINVAL)
        now = time.monotonic_ns() if call.a1 else time.time_ns()
        call.sandbox.write(call.a2, struct.pack("<Q", now))
        return 0

    def _random(self, call: Call) -> int:
        self._check_room(call.sandbox, call.a1, call.a2)
        call.sandbox.write(call.a1, os.urandom(call.a2))
        return 0

    _OPERATIONS: Sequence[Callable[[Files, Call], int]] = (
        _told_words, _open, _close, _read, _write, _seek, _status, _status_of, _truncate, _sync, _unlink, _rename, _make_folder,
        _remove_folder, _clock, _random)


def _is_to_write(descriptor: int) -> bool:
    return fcntl.fcntl(descriptor, fcntl.F_GETFL) & os.O_ACCMODE != os.O_RDONLY


def _place_of_write(descriptor: int) -> int:
    """Where the next bytes would go."""
    if fcntl.fcntl(descriptor, fcntl.F_GETFL) & os.O_APPEND:
        return os.fstat(descriptor).st_size
    return os.lseek(descriptor, 0, os.SEEK_CUR)


def _signed(word: int) -> int:
    return word - (word >> 31 << 32)


def _write_all(descriptor: int, data: bytes) -> None:
    while data:
        data = data[os.write(descriptor, data):]
