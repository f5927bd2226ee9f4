"""Images by native code: libsfi_run_native, and the console of `sfi run` over the calls of any library."""
import collections
import ctypes
import hashlib
import os
import platform
import re
import sys

import libraries
from suygapid.image import layout
from suygapid.trials import fuzzing, worlds

COMMANDS = libraries.built("sfi_tool_c")  # the library with the compiler
NATIVE = 2  # SFI_RUN_NATIVE of sfi_run_native.h
PAGE = 4096  # data have to be whole pages
CAUSES = ["", "Fetch", "Illegal", "Break", "Load", "Store"]
PLACE = re.compile(r"^sandbox=(\d+) pc=([0-9a-f]{8}).*\n((?:x\d+=.*\n){4})", re.MULTILINE)

_WORD, _SIZE, _BOOL, _BYTES, _ROOM = ctypes.c_uint32, ctypes.c_size_t, ctypes.c_bool, ctypes.c_char_p, ctypes.c_void_p
_CONSOLE_CALLS = {
    "new": (_BOOL, [_WORD, _BYTES, _SIZE, ctypes.POINTER(worlds.CWorld)]),
    "turn": (_BOOL, [ctypes.POINTER(worlds.CWorld), ctypes.POINTER(worlds.CWorld), _WORD, _WORD]),
    "written": (_SIZE, [ctypes.POINTER(worlds.CWorld), _WORD]),
    "read": (_BOOL, [ctypes.POINTER(worlds.CWorld), _WORD, _SIZE, _ROOM, _SIZE]),
    "free": (None, [ctypes.POINTER(worlds.CWorld)]),
}

# What a sandbox has come to: the line of `sfi run`, pc and x0 to x31, and the digest of its data.
Outcome = collections.namedtuple("Outcome", "line registers data")


def why_not():
    """Why there is no native code here; nothing where there is."""
    if sys.platform != "linux" or platform.machine() != "x86_64":
        return "this isn't Linux on x86-64"
    return "" if fuzzing.has_gcc() else "gcc isn't there"


def has_pages(image):
    """Whether the data of each sandbox are whole pages, as native code wants them."""
    return all(part.data_size % PAGE == 0 for part in layout.parts(image))


def library(runtime, commands, folder=None):
    """The path of the shared library that is made of these two, in a folder, or where they are linked if none is named."""
    return libraries.make_native(os.path.abspath(runtime), os.path.abspath(commands), folder)[1]


def is_native(path, world):
    """Whether the world, of the library at that path, runs by native code."""
    call = ctypes.CDLL(path).sfi_run_engine
    call.restype, call.argtypes = _WORD, [ctypes.POINTER(worlds.CWorld)]
    return call(world.world) == NATIVE


class Console:
    """The console of a library, over a world that it has. It is freed with it."""

    def __init__(self, path, world, given):
        handle, self.world, self.raw = ctypes.CDLL(path), world, worlds.CWorld()
        for name, (result, arguments) in _CONSOLE_CALLS.items():
            call = getattr(handle, f"sfi_run_console_{name}")
            call.restype, call.argtypes = result, arguments
            setattr(self, f"_{name}", call)
        self.has_memory = self._new(world.count(), given, len(given), self.raw)

    def __del__(self):
        self._free(self.raw)

    def run(self, rounds, quantum):
        """What each sandbox comes to in so many rounds of turns of so many steps."""
        for _ in range(rounds):
            for number in range(self.world.count()):
                self._turn(self.raw, self.world.world, number, quantum)
        return [self.outcome(number) for number in range(self.world.count())]

    def output(self, number):
        length = self._written(self.raw, number)
        buffer = ctypes.create_string_buffer(length + 1)
        self._read(self.raw, number, 0, buffer, length)
        return buffer.raw[:length]

    def outcome(self, number):
        event, region = self.world.event(number), self.world.region(number)
        state = "ready"
        if event.kind == worlds.EXITED:
            state = f"exit={event.number}"
        elif event.kind == worlds.TRAPPED:
            state = f"trap={CAUSES[event.number]} at={event.a0:08x}"
        line = f"sandbox={number} {state} steps={self.world.steps(number)} out={self.output(number).hex()}"
        _, data = self.world.read(number, region[0], region[1], region[1])
        return Outcome(line, self.world.registers(number), hashlib.sha256(data).hexdigest())


def outcomes(path, calls_of, image, options):
    """What `sfi run` with these options, rounds, quantum and input, does with the image, by the calls of the library at that path."""
    world = worlds.Library(calls_of)
    world.load(image)
    try:
        return Console(path, world, options[2]).run(*options[:2])
    finally:
        world.free()


def told(report):
    """The lines of what `sfi run --report` prints, and by sandbox pc and x0 to x31 where it tells them."""
    lines = [line for line in report.splitlines() if " steps=" in line]
    places = {int(number): [int(pc, 16), 0, *(int(it, 16) for it in re.findall(r"=([0-9a-f]{8})", registers))]
              for number, pc, registers in PLACE.findall(report)}
    return lines, places


def run_words(program, options):
    """The words of `sfi run` with these options."""
    rounds, quantum, given = options
    return [program, "run", "--report", "--rounds", str(rounds), "--quantum", str(quantum), "--input", given.hex()]
