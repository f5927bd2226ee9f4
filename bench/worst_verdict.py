#!/usr/bin/env python3
"""Looks for the images whose verdict on an RV32 device takes the most instructions, for each byte of code and for each gate.

    bench/worst_verdict.py --checker FILE [--kind NAME] [--seed N] [--generations N] [--write]

FILE is checker.o of device/checker.sh. It judges on QEMU's `virt`, which counts instructions (verdicts.c). Five climbs go
on from the worst that are kept in worst_verdict.txt: of accepted code in words, in words with single masks, and in bundles; of
gates, 64 in each of 16 sandboxes; and of 4096 bytes that are refused, in which a verdict ends. Each generation changes the best few
images at random. What is found has to be no worse than what is kept, and the README of examples/device has to name that: with --write
what is found is kept. Nothing is proved by it: these are the worst that were found.

The last line is `N passed, M failed`. It wants what examples/device wants, and gcc 12, whose counts the kept ones are.
"""
import argparse
import dataclasses
import os
import pathlib
import random
import struct
import subprocess
import sys
import tempfile

TOP = os.path.dirname(os.path.dirname(os.path.abspath(__file__)))
sys.dont_write_bytecode = True
sys.path.insert(0, os.path.join(TOP, "tools"))
from suygapid.image.layout import FORMATS, Part, spelled
from suygapid.isa.encoding import i_type, r_type, s_type
from suygapid.trials import images, measure

HERE = pathlib.Path(__file__).resolve().parent
KEPT = HERE / "worst_verdict.txt"
MCU = HERE.parent / "examples" / "device" / "mcu"
PAGE = MCU.parent / "README.md"
IMAGES = 0x81000000  # verdicts.c
ACCEPTED, REFUSED = 0, 1
EBREAK = struct.pack("<I", 0x00100073)
OF_WORDS, OF_SINGLE = images.MAGICS[images.WORDS], images.MAGICS[images.SINGLE]
PROBE = 1024  # bytes of code that a climb tries
BEST = 6  # images that a generation goes on from
CHILDREN = 24
SLACK = 1.01  # what is found may be so much worse than what is kept


@dataclasses.dataclass(frozen=True)
class Kind:
    """What is climbed: which verdict is wanted, which magics an image may have, and whether its code is gates."""
    name: str
    status: int
    magics: tuple
    gates: bool = False
    bytes: int = 65536  # of the code that is measured as a whole


ALL = (b"SFI1", b"SFI2", OF_WORDS, OF_SINGLE)
KINDS = [Kind("words", ACCEPTED, (OF_WORDS,)), Kind("single", ACCEPTED, (OF_SINGLE,)), Kind("bundles", ACCEPTED, (b"SFI1", b"SFI2")),
         Kind("gates", ACCEPTED, ALL, True, 16384), Kind("refused", REFUSED, ALL, False, 4096)]


@dataclasses.dataclass(frozen=True)
class Genes:
    """An image: its magic, and the bytes that its code repeats."""
    magic: bytes
    pattern: bytes


def part_of(genes, kind, size, number=0):
    """A sandbox of so many bytes of code."""
    base, data = images.place_of(number, size, FORMATS[genes.magic])
    end = b"" if kind.status == REFUSED or kind.gates else EBREAK * 4
    code = (genes.pattern * (size // len(genes.pattern) + 1))[:size - len(end)] + end
    gates = {base + 16 * gate: 0 for gate in range(size // 16)} if kind.gates else {}
    return Part(base, code, data, 4096, base, gates)


def image_of(genes, kind, size):
    """Of gates there are 64 in a sandbox."""
    most = PROBE if kind.gates else size
    return spelled(genes.magic, [part_of(genes, kind, most, number) for number in range(size // most)])


# ---- Measuring

class Judge:
    """The checker on QEMU."""

    def __init__(self, checker, folder):
        self.folder = folder
        command = ["make", "-s", "-C", MCU, "CHIP=virt", f"OUT={folder}", f"CHECKER={os.path.abspath(checker)}", f"MAIN={HERE}/verdicts.c"]
        subprocess.run(command, check=True)
        self.command = ["qemu-system-riscv32", "-M", "virt", "-bios", "none", "-display", "none", "-monitor", "none", "-serial",
                        "stdio", "-icount", "shift=0", "-kernel", f"{folder}/checked",
                        "-device", f"loader,file={folder}/images,addr={IMAGES},force-raw=on"]

    def verdicts(self, images):
        """The status and the instructions of each."""
        with open(f"{self.folder}/images", "wb") as file:
            for image in images:
                file.write(struct.pack("<I", len(image)) + image + bytes(-len(image) % 4))
            file.write(bytes(4))
        with subprocess.Popen(self.command, stdin=subprocess.DEVNULL, stdout=subprocess.PIPE) as qemu:
            lines = [qemu.stdout.readline().split() for _ in images]
            qemu.kill()
        return [(int(status), int(instructions)) for status, instructions in lines]


# ---- Climbing

# 16-bit instructions and words of each class that the rules tell apart: accesses on x2 and on data registers, steps of them,
# masks, jumps, and what only computes.
HALVES = [0x0001, 0x6141, 0x4161, 0x0141, 0x4582, 0xc22e, 0x4501, 0x852e, 0x0505, 0x952e, 0x8d6d, 0xa001, 0xc101, 0x47c2, 0x717d,
          0x0800, 0x4188, 0xc188]
WORDS = [0x00000013, 0x00810113, 0xff812283, 0x00512023, 0x01b5ffb3, 0x01afe1b3, 0x0001a283, 0x00a1a023, 0x0040006f, 0x00050463,
         0x00100073, 0x01bff133, 0x01a16133, 0x000f8067, 0x019fff33, 0x018f6f33, 0x00418193, 0x02a50533]


def pair(to, register, mask, base):
    """The `and` and `or` that put a register into the data (x27, x26) or the code (x25, x24)."""
    return struct.pack("<II", r_type(0, mask, register, 7, to), r_type(0, base, to, 6, to))


def words_of(*several):
    return struct.pack(f"<{len(several)}I", *several)


# What accepted code is made of: a masked access, of 32 and of 16 bits, a write of x2 put right, a masked jump, accesses on x2,
# and a write of x2 with its single mask.
PHRASES = [
    pair(31, 10, 27, 26) + words_of(i_type(0, 31, 2, 5, 0x03)),
    pair(29, 10, 27, 26) + words_of(s_type(0, 5, 29, 2)),
    pair(8, 9, 27, 26) + struct.pack("<HH", 0x4004, 0x4044),
    pair(8, 9, 27, 26) + struct.pack("<HH", 0xC004, 0xC044),
    words_of(i_type(16, 2, 0, 2, 0x13)) + pair(2, 2, 27, 26),
    struct.pack("<HH", 0x0001, 0x6141) + pair(2, 2, 27, 26),
    pair(31, 1, 25, 24) + words_of(i_type(0, 31, 0, 0, 0x67)),
    words_of(i_type(0, 2, 2, 5, 0x03), s_type(4, 5, 2, 2)),
    words_of(i_type(16, 2, 0, 2, 0x13), r_type(0, 27, 2, 7, 2))]


def unit(pick):
    """Four bytes: two 16-bit instructions, or one of 32 bits."""
    if pick.random() < 0.5:
        return struct.pack("<HH", *(pick.choice(HALVES) if pick.random() < 0.7 else pick.getrandbits(16) for _ in range(2)))
    return struct.pack("<I", pick.choice(WORDS) if pick.random() < 0.7 else pick.getrandbits(32) | 3)


# The stub of a gate: ecall, and a jump to x1, masked into x30 or x31.
STUBS = {b"SFI1": "73000000b3ff9001b3ef8f0167800f00", b"SFI2": "73000000b3ff9001b3ef8f0167800f00",
         OF_WORDS: "7300000033ff9001336f8f0167000f00", OF_SINGLE: "7300000033ff9001336f8f0167000f00"}


def fresh(kind, pick):
    magic = pick.choice(kind.magics)
    if kind.gates and pick.random() < 0.5:
        return Genes(magic, bytes.fromhex(STUBS[magic]))
    length = pick.choice((4, 8, 16)) if magic in (OF_WORDS, OF_SINGLE) else pick.choice((16, 32))
    return Genes(magic, b"".join(unit(pick) for _ in range(length // 4)))


def child(genes, kind, pick):
    """One image, changed at one place or a few."""
    pattern = bytearray(genes.pattern)
    for _ in range(pick.choice((1, 1, 1, 2, 3))):
        at = 4 * pick.randrange(len(pattern) // 4)
        how = pick.randrange(7)
        if how == 0:
            pattern[at:at + 4] = unit(pick)
        elif how == 1:
            half = at + 2 * pick.randrange(2)
            pattern[half:half + 2] = struct.pack("<H", pick.choice(HALVES) if pick.random() < 0.5 else pick.getrandbits(16))
        elif how == 2:
            pattern[at + pick.randrange(4)] ^= 1 << pick.randrange(8)
        elif how == 3:
            other = 4 * pick.randrange(len(pattern) // 4)
            pattern[at:at + 4] = pattern[other:other + 4]
        elif how == 4 and len(pattern) < 64:
            pattern = pattern * 2
        elif how > 4:
            phrase = pick.choice(PHRASES)[:len(pattern) - at]
            pattern[at:at + len(phrase)] = phrase
    return Genes(pick.choice(kind.magics) if pick.random() < 0.05 else genes.magic, bytes(pattern))


class Climb:
    """The best images so far, the worst for the checker first, each with its instructions."""

    def __init__(self, judge, kind, kept, pick):
        self.judge, self.kind, self.pick, self.best = judge, kind, pick, []
        self.tries([*kept, *(fresh(kind, pick) for _ in range(CHILDREN))])

    def tries(self, several):
        verdicts = self.judge.verdicts([image_of(genes, self.kind, PROBE) for genes in several])
        found = [(instructions, genes) for genes, (status, instructions) in zip(several, verdicts) if status == self.kind.status]
        kept = {genes: instructions for instructions, genes in self.best + found}
        self.best = sorted(((instructions, genes) for genes, instructions in kept.items()), key=lambda it: -it[0])[:BEST]

    def generation(self):
        parents = [genes for _, genes in self.best]
        self.tries([child(self.pick.choice(parents), self.kind, self.pick) if parents and self.pick.random() < 0.9
                    else fresh(self.kind, self.pick) for _ in range(CHILDREN)])

    def whole(self, genes):
        """The instructions of a verdict on as much code as is measured, or 0 where that is another."""
        (status, instructions), = self.judge.verdicts([image_of(genes, self.kind, self.kind.bytes)])
        return instructions if status == self.kind.status else 0


# ---- What is kept

def kept_lines():
    """By kind: the image, and its instructions as a whole."""
    rows = [line.split() for line in KEPT.read_text(encoding="utf-8").splitlines() if line and line[0] != "#"] if KEPT.exists() else []
    return {name: (Genes(magic.encode(), bytes.fromhex(pattern)), int(instructions)) for name, magic, pattern, instructions in rows}


def write(worst):
    lines = ["# Of each kind the image whose verdict takes the most instructions, as bench/worst_verdict.py --write found it: its magic,",
             "# the bytes that its code repeats, and the instructions of a verdict: on 65,536 bytes, of gates on 16,384, refused on 4,096."]
    lines += [f"{name} {it.magic.decode()} {it.pattern.hex()} {instructions}" for name, (it, instructions) in worst.items()]
    KEPT.write_text("\n".join(lines) + "\n", encoding="utf-8")


def names(instructions):
    """Whether the page names them, in millions."""
    return f"| {instructions / 1e6:.1f} million |" in PAGE.read_text(encoding="utf-8")


def worst_of(climb, kept, generations):
    """The worst image and its instructions, after so many generations."""
    for _ in range(generations):
        climb.generation()
    several = [genes for _, genes in climb.best[:2]] + ([kept] if kept else [])
    instructions, genes = max(((climb.whole(genes), genes) for genes in several), key=lambda it: it[0])
    return genes, instructions


def main():
    parser = argparse.ArgumentParser()
    parser.add_argument("--checker", required=True)
    parser.add_argument("--seed", type=int, default=1)
    parser.add_argument("--generations", type=int, default=4)
    parser.add_argument("--kind", choices=[kind.name for kind in KINDS])
    parser.add_argument("--write", action="store_true")
    words = parser.parse_args()
    kept, worst = kept_lines(), {}
    with tempfile.TemporaryDirectory() as folder:
        judge = Judge(words.checker, folder)
        for kind in [it for it in KINDS if words.kind in (None, it.name)]:
            genes, most = kept.get(kind.name, (None, 0))
            seeds = [Genes(kind.magics[0], struct.pack("<H", 1) * 16), *(seed for seed, _ in kept.values() if seed.magic in kind.magics)]
            climb = Climb(judge, kind, seeds, random.Random(f"{words.seed} {kind.name}"))
            worst[kind.name] = worst_of(climb, genes, words.generations)
            genes, instructions = worst[kind.name]
            print(f"{kind.name}: {genes.magic.decode()} {genes.pattern.hex()}: {instructions} instructions, "
                  f"{instructions / kind.bytes:.0f} for a byte, kept {most}", flush=True)
    if words.write:
        write({**kept, **worst})
    most = {name: instructions for name, (_, instructions) in kept_lines().items()}
    failed = [name for name, (_, instructions) in worst.items() if instructions > most.get(name, 0) * SLACK or not names(most[name])]
    print("".join(f"{name}: more than is kept, or than {PAGE} names: FAILED\n" for name in failed), end="")
    measure.end([name not in failed for name in worst])


if __name__ == "__main__":
    main()
