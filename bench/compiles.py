#!/usr/bin/env python3
"""How fast `sfi native` compiles, and how many bytes it makes: of random code and of Lua 5.4.

    bench/compiles.py [--program PATH] [--rounds N] [--sources FOLDER]

For each image: its bytes; milliseconds of processor time for `sfi native` on the image's own bytes, the process's start too, the least
of N runs, and megabytes (10^6) of image a second; x86 instructions for a byte of image, by callgrind; the file's bytes for a byte of
image, and bytes of code for an instruction, those of the fill at a sandbox's end aside. Random code is 16 sandboxes of 64 KiB, of the kinds
of tools/suygapid/trials/images.py, in the first format and in words. Lua is in words, and wants its sources (examples/c/programs.py --fetch lua), and
sfi-cc's tools.
"""
import argparse
import os
import struct
import subprocess
import sys
import tempfile
from dataclasses import replace

TOP = os.path.dirname(os.path.dirname(os.path.abspath(__file__)))
sys.dont_write_bytecode = True
sys.path.insert(0, os.path.join(TOP, "tools"))
from suygapid.image import layout
from suygapid.isa.decoding import decode
from suygapid.kept import root
from suygapid.trials import images, measure, programs

FRONT, FIELDS, PLACES, ENTRY, ACCESS = 24, 28, 32, 8, 12  # of a file of native code: crates/sfi_native/specs/File.antt
FILL = b"\x02\x90"  # c.ebreak


def instructions_of(code):
    """How many instructions are in code, and where its fill begins."""
    kept = len(code)
    while code[kept - 2 : kept] == FILL:
        kept -= 2
    count = at = 0
    while at < kept:
        at += decode(code[at : at + 4]).size
        count += 1
    return count, kept


def bytes_of_code(image, file):
    """The bytes of code that a file has for the instructions of an image before the fill, and how many instructions these are."""
    at, total, instructions = FRONT, 0, 0
    for part in layout.parts(image):
        size, accesses = struct.unpack_from("<II", file, at + FIELDS + PLACES)
        entries = at + FIELDS + PLACES + 8
        count, kept = instructions_of(part.code)
        unit = -(-kept // part.unit())
        is_filled = unit < part.code_size // part.unit()
        total += struct.unpack_from("<I", file, entries + ENTRY * unit)[0] if is_filled else size
        instructions += count
        at = entries + ENTRY * (part.code_size // part.unit()) + ACCESS * accesses + size
    return total, instructions


def lua_image(given, folder):
    """Lua's image, or None where its sources aren't there."""
    lua = programs.PROGRAMS["lua"] = replace(programs.PROGRAMS["lua"], heap=400000)
    tree = programs.tree_of(lua, given, folder)
    if tree is None:
        return None
    elf, image = programs.built("lua", tree, folder, "words", given)
    return bytes.fromhex(image.decode()) if elf else None


def row(given, name, image, folder):
    path = measure.written(os.path.join(folder, "image"), image)
    words = [given.program, "native"]
    file = subprocess.run(words, input=image, stdout=subprocess.PIPE, check=True).stdout
    seconds = measure.leasts({name: (words, path)}, given.rounds)[name]
    code, instructions = bytes_of_code(image, file)
    return (f"| {name} | {len(image):,} | {1000 * seconds:.1f} | {len(image) / seconds / 1e6:.1f} | {measure.instructions(words, path) / len(image):.0f} | "
            f"{len(file) / len(image):.1f} | {code / instructions:.2f} |")


def main():
    parser = argparse.ArgumentParser(description=__doc__, formatter_class=argparse.RawDescriptionHelpFormatter)
    parser.add_argument("--program", default=measure.PROGRAM)
    parser.add_argument("--rounds", type=int, default=5)
    parser.add_argument("--sources", default=os.path.join(root(), "sources"))
    given = parser.parse_args()
    given.program, given.fetch, given.given = measure.program_at(given.program), False, []
    print("| image | bytes | ms | MB/s | instructions a byte | bytes of file a byte | bytes of code an instruction |\n|---|---|---|---|---|---|---|")
    with tempfile.TemporaryDirectory() as folder:
        for kind in images.KINDS:
            for image_format, name in ((1, "first format"), (3, "words")):
                print(row(given, f"{kind}, {name}", images.image(kind, format=image_format), folder), flush=True)
        if lua := lua_image(given, folder):
            print(row(given, "Lua", lua, folder))


if __name__ == "__main__":
    main()
