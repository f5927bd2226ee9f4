"""Builds hosts that do to native code what might break it, hostile.c and hostile_signals.c, with each compiler and with sanitizers, and
runs their tests. Beside them stands decode.c: what a host decodes when it runs is compared with the decoder of the tools.
"""
import dataclasses
import os
import struct
import subprocess

import testing
from suygapid.image import layout
from suygapid.isa import decoding

HERE = os.path.dirname(os.path.abspath(__file__))
SOURCE, DECODER = (os.path.join(HERE, it) for it in ("hostile.s", "decode.c"))
HOSTS = {  # the files of each host, and its tests
    ("hostile.c",): ("steps", "threads", "worlds", "anywhere", "timer", "fork", "files", "maps", "fates", "ignored", "handler-once",
                     "handler-before", "handler-after"),
    ("hostile_signals.c", "hostile_other.c"): ("each-instruction", "nested", "thread-signals", "thread-forks", "thread-maps", "first", "stacks",
                                               "faults", "kept", "copies"),
}
# Each build, with tests that it leaves out. The thread sanitizer blocks all signals while a handler runs, and so a sandbox's faults
# there; it and the address sanitizer want larger stacks than the smallest.
WITH_HANDLERS = {"anywhere", "timer", "fork", "files", "maps", "fates", "ignored", "handler-once", "handler-before", "handler-after", "each-instruction", "nested",
                 "thread-signals", "thread-forks", "first", "stacks", "faults", "kept", "copies"}
BUILDS = (
    (("gcc", "-O2"), set()),
    (("clang", "-O2"), set()),
    (("gcc", "-O1", "-g", "-fsanitize=thread"), WITH_HANDLERS | {"worlds"}),  # it has no room for as many windows of 4 GiB
    (("gcc", "-O1", "-g", "-fsanitize=address,undefined", "-fno-sanitize-recover"), {"stacks", "thread-forks"}),
)
# By the format, data registers that a source can't name: the accesses from hostile.s's `other` on are by these.
OTHERS = {b"words": (29, 29, 29), b"single": (29, 26, 31)}
SECONDS = 600  # that a test may take before it counts as hung
PC = 0x40000
OPCODES = (0x33, 0x33, 0x33, 0x13, 0x13, 0x03, 0x23, 0x63, 0x6F, 0x67, 0x37, 0x17)
DECODED = 20000  # words of 32 bits


def image_of(run, sfi, source, format):
    """The image of hostile.s in this format, in hexadecimal."""
    text = source.replace(b".format words", b".format " + format)
    data = bytes.fromhex(run([sfi, "build"], text).decode())
    (part,) = layout.parts(data)
    (place,) = [int(line[-8:], 16) - part.code_base for line in run([sfi, "map"], text).splitlines() if b" code other at=" in line]
    code = bytearray(part.code)
    for at, register in zip(range(place, part.code_size, 4), OTHERS[format]):
        word = struct.unpack_from("<I", code, at)[0]
        struct.pack_into("<I", code, at, word & ~(31 << 15) | register << 15)
        assert decoding.decode(code, at) == decoding.decode(part.code, at)._replace(rs1=register), "an access is by its base register"
    return layout.spelled(data[:4], [dataclasses.replace(part, code=bytes(code))]).hex().encode()


def tests(run, sfi, compilers, flags, folder):
    """What each test is, and whether it passed. `run` gives a program's output."""
    text, native, host = (os.path.join(folder, it) for it in ("hostile.inc", "hostile.native", "hostile"))
    with open(SOURCE, "rb") as file:
        source = file.read()
    for format, builds in ((b"words", BUILDS), (b"single", [BUILDS[0], *testing.by_turns(BUILDS[1:], 1)])):
        image = image_of(run, sfi, source, format)
        for path, data in ((text, run([sfi, "translate"], image)), (native, run([sfi, "native"], image))):
            with open(path, "wb") as file:
                file.write(data)
        for compiler, left_out in builds:
            for files, names in HOSTS.items() if compiler[0] in compilers else ():
                sources = [os.path.join(HERE, it) for it in files]
                subprocess.run([*compiler, *flags, f'-DSFI_TEXT="{text}"', *sources, "-pthread", "-o", host], check=True)
                for name in names:
                    if name not in left_out:
                        yield f"{files[0]}, {name}, {format.decode()}, by {' '.join(compiler)}", is_passed([host, native, name])


def is_passed(words):
    try:
        return subprocess.run(words, timeout=SECONDS, check=False).returncode == 0
    except subprocess.TimeoutExpired:
        return False


def samples(pick):
    """Every 16-bit form, and random words by their opcodes."""
    words = [struct.pack("<HH", half, pick.getrandbits(16)) for half in range(1 << 16) if half & 3 != 3]
    for _ in range(DECODED):
        word = pick.getrandbits(32) & ~0x7F | pick.choice(OPCODES)
        words.append(struct.pack("<I", word & 0x1FFFFFF | pick.choice((0, 1, 32)) << 25 if word & 0x5F == 0x13 and pick.random() < 0.8 else word))
    return words + [struct.pack("<I", it) for it in (0x73, 0x100073, 0x0FF0000F)]


def row(found):
    """The row of an instruction, as decode.c prints it."""
    number = found.number + PC if found.op in ("jal", *decoding.BRANCHES) else found.number >> 12 if found.op in ("lui", "auipc") else found.number
    if found.op == "fence":
        return "fence 4 0 0 0 0"
    return f"{found.op} {found.size} {found.rd} {found.rs1} {found.rs2} {number & 0xFFFFFFFF}"


def decodes(run, compiler, flags, folder, pick):
    """Whether each word that decodes does so to the same instruction."""
    program, words = os.path.join(folder, "decode"), samples(pick)
    subprocess.run([*compiler, *flags, DECODER, "-o", program], check=True)
    rows = run([program, hex(PC)], b"".join(words)).decode().splitlines()
    wrong = []
    kinds = set()
    for word, told in zip(words, rows, strict=True):
        found = decoding.decode(word)
        if found is not None:
            kinds.add(found.op)
            wrong += [word.hex()] if row(found) != told else []
    yield f"{len(wrong)} words decode otherwise: {wrong[:3]}", not wrong
    yield f"{len(kinds)} kinds of instructions", len(kinds) == 48
