"""The library's store for ctypes: device/store.c, or a text in its place, built for this machine."""
import ctypes
import pathlib
import subprocess

from suygapid import TOP

DEVICE = pathlib.Path(TOP, "device")
SOURCES = ("store.c", "sha256.c")
FLAGS = ("-std=c11", "-O2", "-fPIC", "-shared", "-Wall", "-Wextra", "-Wpedantic", "-Wconversion", "-Wshadow", "-Wmissing-prototypes",
         "-Werror")
STATES = ("none", "new", "on trial", "good", "bad")
STATUSES = ("done", "bad setup", "no version", "flash failed", "too early", "wrong length", "too old", "not signed", "differs")
AREAS = 2

U32, BYTES = ctypes.c_uint32, ctypes.POINTER(ctypes.c_ubyte)
READ = ctypes.CFUNCTYPE(ctypes.c_bool, ctypes.c_void_p, U32, BYTES, U32)
ERASE = ctypes.CFUNCTYPE(ctypes.c_bool, ctypes.c_void_p, U32)
PROGRAM = ctypes.CFUNCTYPE(ctypes.c_bool, ctypes.c_void_p, U32, BYTES)


class Functions(ctypes.Structure):
    _fields_ = [("sector_size", U32), ("page_size", U32), ("read", READ), ("erase_sector", ERASE), ("program_page", PROGRAM)]


class Claim(ctypes.Structure):
    _fields_ = [("sequence", U32), ("least_sequence", U32), ("length", U32), ("digest", ctypes.c_ubyte * 32)]


class Version(ctypes.Structure):
    _fields_ = [("state", U32), ("starts", U32), ("claim", Claim), ("signature", ctypes.c_ubyte * 64)]


class Record(ctypes.Structure):
    _fields_ = [("layout", U32), ("generation", U32), ("least_sequence", U32), ("versions", Version * AREAS),
                ("check", ctypes.c_ubyte * 12)]


IS_SIGNED = ctypes.CFUNCTYPE(ctypes.c_bool, ctypes.c_void_p, ctypes.POINTER(Claim), BYTES)
WATCH = ctypes.CFUNCTYPE(None, ctypes.c_void_p, ctypes.c_bool)
READ_COUNTER = ctypes.CFUNCTYPE(U32, ctypes.c_void_p)
RAISE_COUNTER = ctypes.CFUNCTYPE(ctypes.c_bool, ctypes.c_void_p, U32)


class Store(ctypes.Structure):
    _fields_ = [("flash", ctypes.POINTER(Functions)), ("host", ctypes.c_void_p), ("records", U32), ("areas", U32 * AREAS),
                ("area_size", U32), ("trial_starts", U32), ("is_signed", IS_SIGNED), ("watch", WATCH),
                ("read_counter", READ_COUNTER), ("raise_counter", RAISE_COUNTER), ("record", Record), ("place", U32),
                ("is_chosen", ctypes.c_bool), ("chosen", U32), ("is_taking", ctypes.c_bool), ("target", U32), ("taken", U32),
                ("update", Version), ("page", ctypes.c_ubyte * 256)]


def build(folder, text=None):
    """The library, with the text in the place of store.c."""
    sources = [DEVICE / it for it in SOURCES]
    if text is not None:
        sources[0] = pathlib.Path(folder) / "store.c"
        sources[0].write_text(text, encoding="utf-8")
    made = pathlib.Path(folder) / "store.so"
    made.unlink(missing_ok=True)
    flags = FLAGS if text is None else ("-std=c11", "-fPIC", "-shared")
    subprocess.run(["gcc", *flags, f"-I{DEVICE}", "-o", made, *sources], check=True)
    return ctypes.CDLL(str(made))
