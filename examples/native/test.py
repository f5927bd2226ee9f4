#!/usr/bin/env python3
"""Runs images by native code, and compares what they do with `sfi run`, traps, steps and registers included: the examples in each
format, and random accepted images with accesses to guard zones, in turns of several lengths. The checksum of each file of native code
is that of zlib; files with bytes changed or missing are refused, also by a right checksum. Then hostile.py.

    examples/native/test.py [--library libsfi_run.a] [--commands libsfi_tool_c.a] [--program SFI] [--images N] [--seed SEED]
"""
import os
import random
import resource
import shutil
import struct
import subprocess
import sys
import tempfile
import zlib

sys.dont_write_bytecode = True
TOP = os.path.dirname(os.path.dirname(os.path.dirname(os.path.abspath(__file__))))
sys.path.insert(0, os.path.join(TOP, "tools"))
import hostile
from suygapid import native
from suygapid.trials import corpus, guarded, natively, translations, worlds
from suygapid.trials.measure import written

INCLUDED = [word for it in ("sfi_native", "sfi_translate") for word in ("-I", os.path.join(TOP, "crates", it, "include"))]
FLAGS = ["-std=gnu11", "-Wall", "-Wextra", "-Werror", "-Wno-unused-function", *INCLUDED]
COMPILERS = (("gcc", "-O1"), ("clang", "-O1"))
TURNS = ((2, 2000), (50, 13), (1, 64), (1, 128), (3, 100000))
FRONT = 24  # bytes of a file before its first sandbox
SIZES = FRONT + 28 + 32  # where the sizes of its code and accesses are, behind its fields and the places of registers


def printed(words, text=b""):
    return subprocess.run(words, input=text, stdout=subprocess.PIPE, stderr=subprocess.DEVNULL).stdout


def is_closed(file):
    """Whether the file ends with its length and the checksum of all before."""
    length, checksum = struct.unpack("<II", file[-8:])
    return length == len(file) - 8 and checksum == zlib.crc32(file[:-4])


def try_image(sfi, library, image):
    """What the image does by turns of each kind, and whether it is right."""
    yield f"the file of {image.hex()[:80]}.. is closed", is_closed(printed([sfi, "native"], image))
    for turns in TURNS:
        options = (*turns, bytes.fromhex(translations.INPUT))
        lines, places = natively.told(printed(natively.run_words(sfi, options), image).decode())
        found = natively.outcomes(library, worlds.Calls(library), image, options)
        same = [it.line for it in found] == lines and all(found[number].registers == place for number, place in places.items())
        yield f"{image.hex()[:80]}.. {turns}\n  wanted {lines} {places}\n  found  {found}", same


def closed(content):
    """The file of these bytes, with its length and the checksum."""
    counted = content + struct.pack("<I", len(content))
    return counted + struct.pack("<I", zlib.crc32(counted))


def other_files(file):
    """By what they have, files that are none of this one's image: changed, cut short, and so with a right checksum."""
    for place in (0, 4, FRONT, len(file) // 2, len(file) - 1):
        yield f"a byte changed at {place}", file[:place] + bytes([file[place] ^ 1]) + file[place + 1:]
        yield f"{place} bytes", file[:place]
    for place in (FRONT, FRONT + 1, SIZES - 1, SIZES + 7, SIZES + 8, len(file) // 2, len(file) - 9):
        yield f"{place} bytes and a checksum", closed(file[:place])
    for format in {b"W": b"S1", b"S": b"W1"}.get(file[19:20], b""):
        yield f"the format {format}", closed(file[:19] + bytes([format]) + file[20:-8])
    for place in (SIZES, SIZES + 4):
        for size in (0, 2 ** 31, 2 ** 32 - 1):
            yield f"size {size} at {place}", closed(file[:place] + struct.pack("<I", size) + file[place + 4:-8])


def is_loaded(folder, image, file, most=resource.RLIM_INFINITY):
    """Whether the host of `sfi exec` runs the image by that file, which stands for what a program answers, with so many addresses."""
    paths = [written(os.path.join(folder, name), data) for name, data in (("image", image), ("native", file))]
    program = written(os.path.join(folder, "program"), f"#!/bin/sh\nexec cat {paths[1]}\n".encode())
    os.chmod(program, 0o755)
    limit = ["prlimit", f"--as={most}"] if most != resource.RLIM_INFINITY else []
    return printed([*limit, native.HOST, "--program", program, "--told", "1", paths[0], "1", "1", "--"]).startswith(native.LOADED)


def try_refusals(sfi, folder, image):
    """Whether files that aren't whole are refused."""
    file = printed([sfi, "native"], image)
    is_wide = guarded.layout.parts(image)[0].format == guarded.layout.SINGLE  # it takes 4 GiB of addresses
    yield "the file itself is loaded", is_loaded(folder, image, file)
    yield "the file is loaded within 2 GiB", is_loaded(folder, image, file, 1 << 31) != is_wide
    yield "the file is loaded within 6 GiB", is_loaded(folder, image, file, 6 << 30)
    for what, other in other_files(file):
        if other != file:  # code may have no accesses
            yield f"a file with {what} is loaded", not is_loaded(folder, image, other)


def try_zones(sfi, images):
    """Whether loads and stores of these images trap below the data and above them, and on both sides of address 0."""
    zones = set().union(*(guarded.trapping_zones(printed([sfi, "run"], it), it) for it in images))
    yield f"accesses trap in {sorted(zones)} alone", len(zones) == 8


def main():
    given = translations.options(__doc__, library=worlds.LIBRARY, commands=natively.COMMANDS)
    compilers = [it for it in COMPILERS if shutil.which(it[0])]
    why = natively.why_not()
    if why:
        print(f"skipped: native code: {why}\n0 passed, 0 failed, 1 skipped")
        return 0
    pick = random.Random(given.seed)
    images = [guarded.grown(it) for it in corpus.examples(given.program)] + guarded.images(pick, given.program, given.images)
    images = [it for it in images if natively.has_pages(it)]
    tried = [(f"{len(images)} images have data of whole pages", len(images) > given.images), ("the host is there", native.make() is not None)]
    tried += try_zones(given.program, images)
    with tempfile.TemporaryDirectory() as folder:
        library = natively.library(given.library, given.commands, folder)
        for image in images:
            tried += try_image(given.program, library, image)
        alone = {parts[0].format: it for it in images if len(parts := guarded.layout.parts(it)) == 1}
        for image in alone.values():
            tried += try_refusals(given.program, folder, image)
        tried += hostile.decodes(printed, compilers[0], FLAGS, folder, pick)
        tried += hostile.tests(printed, given.program, [it[0] for it in compilers], FLAGS, folder)
    return translations.ended(tried)


if __name__ == "__main__":
    sys.exit(main())
