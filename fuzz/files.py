#!/usr/bin/env python3
"""Tries whether a sandbox comes out of the folders that its host lists: random calls of the gate `sfi_system`, with paths that lead
out by `..`, links and absolute names, while a thread puts links in the place of folders and back.

    fuzz/files.py [--rounds N] [--seconds S] [SEED ..]

Both ready-made hosts are tried: that of Python, and, if gcc is there, that of C (sfi_run_files.h). Beside the listed folders lie files
with a text that no call may answer. After each case all that is outside is as it was, nothing of a folder that is listed as read-only
has changed, one within another folder neither, no more files are open than the limit, no call has raised an exception, and none finds
a stream once the host is closed. All that a call may come to by a mistake of a host lies in the case's own folder: links lead there,
also those of /proc, and it is so deep that no path leads up out of it.
"""
import ctypes
import os
import subprocess
import sys
import tempfile
import threading
from dataclasses import dataclass, field

TOP = os.path.dirname(os.path.dirname(os.path.abspath(__file__)))
sys.dont_write_bytecode = True
sys.path.insert(0, os.path.join(TOP, "tools"))
from suygapid.trials import fuzzing
from sfi_run import OutsideData, Region, _folders, _use, files

SECRET = b"what no sandbox may read"
CALLS = 300  # of a case
DEEP = 12  # more folders than a path of a call leads up
BASE, SIZE = 0x01800000, 1 << 16
COMPARED = ("nothing of outside is read", "outside nothing changes", "read-only is read-only", "limits hold", "replies are words",
            "closed is closed", "a refused call uses no limit")
NAMES = (b"a", b"b", b"folder", b"deep", b"swapped", b"out", b"up", b"here", b"loop", b"fifo", b"secret", b"..", b".", b"", b"proc",
         b"etc", b"passwd", b"...", b"a\0b", b"x" * 300, b"\xff\xfe", b"self", b"root", b"above")
LEADS = (b"../secret", b"out/secret", b"folder/out", b"folder/../../secret", b"up/secret", b"swapped/secret", b"swapped/../../secret",
         b"root/etc/passwd", b"self/etc/passwd", b"here/../secret", b"linked", b"folder/deep/../../../../outside/secret",
         b"above", b"above/kept", b"above/kept/a", b"above/kept/new")
LIMITS = files.Limits(streams=8, growth=1 << 20, entries=40, size=1 << 19, numbers=50)
OPERATIONS = 16
STREAMS_IN_C = 64


def plant(name):
    """Has the host make a mistake."""
    inside = _folders._parts
    if name == "links":  # on the way
        _folders._SEARCHED &= ~os.O_NOFOLLOW
    elif name == "last link":
        files._OPENED &= ~os.O_NOFOLLOW
        files.check_file = lambda status: None
    elif name == "parents":
        _folders._parts = lambda path: tuple(part.replace(b"..", b"../") if part == b".." else part for part in inside(path))
    elif name == "read-only":
        _folders.Place.check_change = lambda place: None
    elif name == "read-only within":
        _folders.Folders._is_read_only = lambda folders, at: False
    elif name == "moved":
        _folders.Folders.check_free = lambda folders, place: None
    elif name == "growth":
        _use.Use.resize = lambda use, status, size: None


MISTAKES = ("links", "last link", "parents", "read-only", "read-only within", "moved", "growth")


class Box:
    """What calls see of a sandbox: its data."""

    def __init__(self):
        self.data = Region(BASE, SIZE)
        self.bytes = bytearray(SIZE)

    def read(self, at, length):
        if not (length == 0 or BASE <= at <= at + length <= BASE + SIZE):
            raise OutsideData(f"{length} bytes at {at:08x}")
        return bytes(self.bytes[at - BASE:at - BASE + length]) if length else b""

    def write(self, at, data):
        self.read(at, len(data))
        self.bytes[at - BASE:at - BASE + len(data)] = data


@dataclass
class Call:
    """A call of the gate."""
    sandbox: Box
    words: list
    answers: list = field(default_factory=list)

    def __getattr__(self, name):
        return self.words[int(name[1:])]

    def reply(self, answer):
        self.answers.append(answer)


class InC:
    """The host in C, as that of Python is called."""
    library = None

    @classmethod
    def compile(cls, folder):
        path = os.path.join(folder, "host.so")
        words = ["-std=c11", "-O2", "-shared", "-fPIC", "-fsanitize=undefined", "-fsanitize-undefined-trap-on-error"]
        words += [f"-I{TOP}/crates/{it}/include" for it in ("sfi_run", "sfi_c")]
        subprocess.run(["gcc", *words, "-o", path, os.path.join(TOP, "fuzz", "files_host.c")], check=True)
        cls.library = ctypes.CDLL(path)
        cls.library.host_call.restype = ctypes.c_uint32

    def __init__(self, folders, words, limits, streams):
        del words
        why = self.library.host_open(*(os.fsencode(it.path) for it in folders), limits.growth, limits.entries, (ctypes.c_int * 3)(*streams))
        if why:
            raise OSError(why, os.strerror(why))

    def __enter__(self):
        return self

    def __exit__(self, *_):
        self.library.host_close()

    def serve(self, call):
        data = (ctypes.c_uint8 * SIZE).from_buffer(call.sandbox.bytes)
        call.reply(self.library.host_call((ctypes.c_uint32 * 8)(*call.words), data))


def tree(folder):
    """All that lies below a folder: the kind, the links, and what a file or a link holds."""
    found = {}
    for at, folders, names in os.walk(folder):
        for name in folders + names:
            path = os.path.join(at, name)
            if os.path.islink(path):
                found[path] = os.readlink(path)
            elif os.path.isfile(path):
                with open(path, "rb") as file:
                    found[path] = file.read()
            else:
                found[path] = None
    return found


def write(path, data):
    with open(path, "wb") as file:
        file.write(data)


def filled(folder, outside):
    """Fills a folder with what a sandbox may meet: folders, files, and links that lead out."""
    os.makedirs(os.path.join(folder, "folder", "deep"))
    os.mkdir(os.path.join(folder, "swapped"))
    for name in ("a", "folder/b", "folder/deep/a", "swapped/secret"):
        write(os.path.join(folder, name), b"inside")
    for name, target in (("out", outside), ("up", ".."), ("here", "folder"), ("loop", "loop"), ("folder/out", os.path.join(outside, "secret")),
                         ("linked", os.path.join(outside, "secret")), ("root", outside), ("self", "/proc/self/cwd")):
        os.symlink(target, os.path.join(folder, name))
    os.mkfifo(os.path.join(folder, "fifo"))


class Swapper(threading.Thread):
    """Renames a folder away, puts a link to the outside in its place, and puts it back, over and over."""

    def __init__(self, folder, outside):
        super().__init__(daemon=True)
        self.at, self.outside, self.ends = os.path.join(folder, "swapped"), outside, threading.Event()

    def run(self):
        away = os.path.join(os.path.dirname(os.path.dirname(self.at)), "away")
        while not self.ends.is_set():
            try:
                os.rename(self.at, away)
                os.symlink(self.outside, self.at)
                os.unlink(self.at)
                os.rename(away, self.at)
            except OSError:  # the sandbox has put something there
                if os.path.isdir(away) and not os.path.lexists(self.at):
                    os.rename(away, self.at)


def path(dice):
    first = dice.choice((b"/work", b"/work", b"/dict", b"", b"/", b"/other", b"/kept"))
    if dice.random() < 0.3:
        return first + b"/" + dice.choice(LEADS)
    parts = [first, *dice.choices(NAMES, k=dice.choice((1, 1, 1, 2, 2, 3, 6)))]
    return (dice.choice((b"/", b"/", b"//")).join(parts))[:2000]


def number(dice):
    return dice.choice((0, 1, 2, 3, 3, 4, 5, 6, 7, 10, 11, 63, 4096, 65536, 65537, 1 << 19, 1 << 20, (1 << 31) - 1, 1 << 31, (1 << 32) - 1,
                        BASE, BASE + 9, BASE + SIZE - 4, dice.randrange(1 << 32)))


OPEN, CLOSE, READ, WRITE, SEEK, STATUS, STATUS_OF, TRUNCATE, SYNC, UNLINK, RENAME, MAKE, REMOVE = range(1, 14)  # operations


def call_of(dice, box):
    """A random call, which often has right arguments."""
    operation = dice.randrange(-1, OPERATIONS + 1)
    words = [(files.FIRST + operation) & 0xFFFFFFFF, *(number(dice) for _ in range(7))]
    for at in (1, 3):
        if (operation in (OPEN, STATUS_OF, UNLINK, MAKE, REMOVE) and at == 1 or operation == RENAME) and dice.random() < 0.95:
            text = path(dice)
            if operation == RENAME and dice.random() < 0.3:  # what has a listed folder in it
                text = b"/work/above" if at == 1 else b"/work/moved"
            box.write(BASE + at * 4096, text)
            words[at:at + 2] = [BASE + at * 4096, len(text)]
    if operation in (CLOSE, READ, WRITE, SEEK, STATUS, TRUNCATE, SYNC) and dice.random() < 0.9:
        words[1] = dice.randrange(2, 12)
    if operation in (READ, WRITE) and dice.random() < 0.8:
        words[2:4] = [BASE + 16384, dice.choice((1, 24, 4096, 30000))]
    if operation == OPEN and dice.random() < 0.9:
        words[3] = dice.choice((1, 2, 3, 7, 6, 15, 22, 38, 39))
    if operation == STATUS:
        words[2] = dice.choice((BASE + 8192, words[2]))
    return words


def case(tally, dice, room, host_of, streams_most):
    """One case of a host, in a folder of its own, to which /proc/self/cwd leads meanwhile."""
    room = os.path.join(room, *["below"] * DEEP)
    outside, here = os.path.join(room, "outside"), os.getcwd()
    os.makedirs(os.path.join(outside, "etc"))
    os.chdir(outside)
    try:
        case_in(tally, dice, room, outside, host_of, streams_most)
    finally:
        os.chdir(here)


def case_in(tally, dice, room, outside, host_of, streams_most):
    work, dictionary = (os.path.join(room, name) for name in ("lists/work", "lists/dict"))
    for folder in (work, dictionary):
        os.makedirs(folder)
    for name in ("secret", "etc/passwd"):
        write(os.path.join(outside, name), SECRET)
    write(os.path.join(os.path.dirname(work), "secret"), SECRET)
    filled(work, outside)
    filled(dictionary, outside)
    within = os.path.join(work, "above", "kept")
    os.makedirs(within)
    write(os.path.join(within, "a"), b"inside")
    before, kept = tree(outside), [tree(dictionary), tree(within)]
    box, swapper, is_clean, most = Box(), Swapper(work, outside), True, 0
    swapper.start()
    raised = words = None
    streams = (os.open(os.devnull, os.O_RDONLY), *(os.open(os.devnull, os.O_WRONLY) for _ in range(2)))
    descriptors = len(os.listdir("/proc/self/fd"))
    folders = [files.Folder(work, "/work"), files.Folder(dictionary, "/dict", True), files.Folder(within, "/kept", True)]
    with host_of(folders, words=["x"], limits=LIMITS, streams=streams) as host:
        for _ in range(CALLS):
            call = Call(box, call_of(dice, box))
            try:
                host.serve(call)
                if call.words[0] == files.FIRST + OPEN and call.answers[0] < 1 << 31:  # what was opened is read
                    host.serve(Call(box, [files.FIRST + READ, call.answers[0], BASE, 64, 0, 0, 0, 0]))
            except Exception as error:  # whichever it is, the host would have ended
                raised, words = repr(error), call.words
                break
            is_clean = is_clean and SECRET not in box.bytes
            most = max(most, len(os.listdir("/proc/self/fd")) - descriptors)
            tally.see("replies are words", True, len(call.answers) == 1 and 0 <= call.answers[0] < 1 << 32)
    own = [os.open(__file__, os.O_RDONLY) for _ in range(streams_most)]  # by the numbers that streams had
    for stream in range(files.FIRST_STREAM, files.FIRST_STREAM + streams_most):
        call = Call(box, [files.FIRST + READ, stream, BASE, 1, 0, 0, 0, 0])
        host.serve(call)
        tally.see("closed is closed", [-files.NUMBERS["EBADF"] & 0xFFFFFFFF], call.answers)
    for descriptor in (*streams, *own):
        os.close(descriptor)
    swapper.ends.set()
    swapper.join()
    tally.see("replies are words", None, raised and (raised, words))
    tally.see("nothing of outside is read", True, is_clean)
    tally.see("outside nothing changes", before, tree(outside))
    tally.see("read-only is read-only", kept, [tree(dictionary), tree(within)])
    made = sum(len(it or b"") for it in tree(work).values() if isinstance(it, bytes))
    tally.see("limits hold", True, most <= streams_most + 2 and made <= LIMITS.growth + 1000 and len(tree(work)) <= LIMITS.entries + 20)


def refusals(tally, room, host_of):
    """Calls that are refused, by the errors that POSIX has for them, and use nothing of a limit."""
    os.mkdir(os.path.join(room, "few"))
    write(os.path.join(room, "few", "a"), b"inside")
    box = Box()
    box.write(BASE, b"/work/a/work/b/work/c")
    folders = [files.Folder(os.path.join(room, "few"), "/work"), files.Folder(room, "/dict", True), files.Folder(room, "/kept", True)]
    limits = files.Limits(streams=8, growth=100, entries=1)
    with host_of(folders, words=["x"], limits=limits, streams=(0, 1, 2)) as host:
        for wanted, *words in (
                (3, OPEN, BASE, 7, files.READS), (-22, TRUNCATE, 3, 106), (-9, WRITE, 3, BASE, 100),
                (4, OPEN, BASE, 7, files.WRITES), (0, TRUNCATE, 4, 106), (-28, TRUNCATE, 4, 107),
                (5, OPEN, BASE + 7, 7, files.WRITES | files.CREATES, 0o600), (-28, OPEN, BASE + 14, 7, files.WRITES | files.CREATES, 0o600),
                (-17, OPEN, BASE, 7, files.WRITES | files.CREATES | files.IS_NEW, 0o600)):
            call = Call(box, [files.FIRST + words[0], *words[1:], *[0] * (8 - len(words))])
            host.serve(call)
            tally.see("a refused call uses no limit", (words, [wanted & 0xFFFFFFFF]), (words, call.answers))


def main():
    parser = fuzzing.options(__doc__.split("\n\n", maxsplit=1)[0], 100)
    parser.add_argument("--plant", choices=MISTAKES, help="a mistake of the host, which has to be seen")
    given = parser.parse_args()
    plant(given.plant)
    tally = fuzzing.tally_of(parser, given, COMPARED)
    hosts = [(files.Files, LIMITS.streams)]
    with tempfile.TemporaryDirectory() as folder:
        if not fuzzing.has_gcc():
            tally.skip(1, "the host in C", "gcc isn't there")
        elif not given.plant:  # which Python's has
            InC.compile(folder)
            hosts.append((InC, STREAMS_IN_C))
        for host_of, _ in hosts:
            with tempfile.TemporaryDirectory() as room:
                refusals(tally, room, host_of)
        for tally.case, dice in fuzzing.cases(given):
            state = dice.getstate()
            for host in hosts:
                dice.setstate(state)
                with tempfile.TemporaryDirectory() as room:
                    case(tally, dice, room, *host)
    return tally.end()


if __name__ == "__main__":
    sys.exit(main())
