#!/usr/bin/env python3
"""Checks the image on standard input by the shared library, and lists its first findings:

    host.py LIBRARY [CAPACITY] < IMAGE        # the image's own bytes; room for CAPACITY findings, 2 if absent
    host.py LIBRARY 0 SIZE < IMAGE            # SIZE bytes at a time, and no findings but the first
    host.py LIBRARY parts < IMAGE             # what is in it where it is accepted, as parts.c prints it
"""
import ctypes
import sys


class Finding(ctypes.Structure):
    """struct sfi_finding"""
    _fields_ = [("sandbox", ctypes.c_uint32), ("address", ctypes.c_uint32), ("rule", ctypes.c_uint32)]


class Verdict(ctypes.Structure):
    """struct sfi_verdict"""
    _fields_ = [("status", ctypes.c_uint32), ("layout_fault", ctypes.c_uint32), ("sandboxes", ctypes.c_uint32),
                ("bundles", ctypes.c_uint32), ("findings", ctypes.c_uint32), ("first", Finding)]


class Part(ctypes.Structure):
    """struct sfi_part"""
    _fields_ = [("format", ctypes.c_uint32), ("code_base", ctypes.c_uint32), ("code_size", ctypes.c_uint32),
                ("data_base", ctypes.c_uint32), ("data_size", ctypes.c_uint32), ("start", ctypes.c_uint32),
                ("gates", ctypes.c_uint32), ("init_size", ctypes.c_uint32), ("code_offset", ctypes.c_size_t),
                ("init_offset", ctypes.c_size_t)]


class Gate(ctypes.Structure):
    """struct sfi_gate"""
    _fields_ = [("address", ctypes.c_uint32), ("service", ctypes.c_uint32)]


class Stream(ctypes.Structure):
    """struct sfi_stream"""
    _fields_ = [("words", ctypes.c_uint64 * 119)]


assert ctypes.sizeof(Finding) == 12 and ctypes.sizeof(Verdict) == 32
assert ctypes.sizeof(Part) == 32 + 2 * ctypes.sizeof(ctypes.c_size_t) and ctypes.sizeof(Gate) == 8


def load(path):
    """The library, with the types of its calls."""
    library = ctypes.CDLL(path)
    library.sfi_c_findings.argtypes = [ctypes.c_char_p, ctypes.c_size_t, ctypes.POINTER(Finding), ctypes.c_size_t,
                                       ctypes.POINTER(Verdict)]
    library.sfi_c_findings.restype = ctypes.c_uint32
    library.sfi_c_check.argtypes = [ctypes.c_char_p, ctypes.c_size_t, ctypes.POINTER(Verdict)]
    library.sfi_c_check.restype = ctypes.c_uint32
    library.sfi_c_part.argtypes = [ctypes.c_char_p, ctypes.c_size_t, ctypes.c_uint32, ctypes.POINTER(Part)]
    library.sfi_c_part.restype = ctypes.c_uint32
    library.sfi_c_gates.argtypes = [ctypes.c_char_p, ctypes.c_size_t, ctypes.c_uint32, ctypes.POINTER(Gate),
                                    ctypes.c_size_t]
    library.sfi_c_gates.restype = ctypes.c_uint32
    library.sfi_c_begin.argtypes = [ctypes.POINTER(Stream)]
    library.sfi_c_begin.restype = None
    library.sfi_c_feed.argtypes = [ctypes.POINTER(Stream), ctypes.c_char_p, ctypes.c_size_t]
    library.sfi_c_feed.restype = None
    library.sfi_c_end.argtypes = [ctypes.POINTER(Stream), ctypes.POINTER(Verdict)]
    library.sfi_c_end.restype = ctypes.c_uint32
    return library


def line_of(verdict):
    """The verdict's line."""
    first = verdict.first
    return {
        0: f"accepted sandboxes={verdict.sandboxes} bundles={verdict.bundles}",
        1: f"refused findings={verdict.findings} first=V{first.rule} sandbox={first.sandbox} at={first.address:08x}",
        2: f"layout fault {verdict.layout_fault}",
    }[verdict.status]


def verdict_in_pieces(library, source, size):
    """The verdict on the bytes of the source, of which it keeps none."""
    stream = Stream()
    verdict = Verdict()
    library.sfi_c_begin(ctypes.byref(stream))
    while piece := source.read(size):
        library.sfi_c_feed(ctypes.byref(stream), piece, len(piece))
    library.sfi_c_end(ctypes.byref(stream), ctypes.byref(verdict))
    return verdict


def lines_of_parts(library, image):
    """A line for each sandbox, one for where it lies in the image, and one for each of its gates."""
    part = Part()
    number = 0
    while library.sfi_c_part(image, len(image), number, ctypes.byref(part)) == 0:
        yield (f"sandbox {number} code {part.code_base:08x} {part.code_size} data {part.data_base:08x} {part.data_size} "
               f"start {part.start:08x} gates {part.gates} init {part.init_size}")
        yield f"bytes format {part.format} code {part.code_offset} init {part.init_offset}"
        gates = (Gate * part.gates)()
        library.sfi_c_gates(image, len(image), number, gates, part.gates)
        yield from (f"gate {gate.address:08x} {gate.service}" for gate in gates)
        number += 1


def main(path, capacity="2", size=None):
    """Prints the findings that there is room for, and then the verdict; or what is in the image."""
    if size:
        verdict = verdict_in_pieces(load(path), sys.stdin.buffer, int(size))
        print(line_of(verdict))
        return verdict.status
    image = sys.stdin.buffer.read()
    if capacity == "parts":
        library = load(path)
        status = library.sfi_c_check(image, len(image), ctypes.byref(Verdict()))
        if status == 0:
            print(*lines_of_parts(library, image), sep="\n")
        return status
    array = (Finding * int(capacity))()
    verdict = Verdict()
    status = load(path).sfi_c_findings(image, len(image), array, len(array), ctypes.byref(verdict))
    for found in array[:verdict.findings]:
        print(f"{found.sandbox} {found.address:08x} V{found.rule}")
    print(line_of(verdict))
    return status


if __name__ == "__main__":
    sys.exit(main(*sys.argv[1:]))
