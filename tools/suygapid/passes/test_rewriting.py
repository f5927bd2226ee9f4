"""Tests of rewriting a file: `tools/unit_tests.py tools/suygapid/passes`. Where the labels lie is compared with what `as` says."""
import os
import subprocess

from suygapid.passes.assembly import Refused
from suygapid.passes.improving import PASSES
from suygapid.passes.placement import places
from suygapid.passes.rewriting import Rewriting, rewritten
from suygapid.passes.typed import WORDS
from testing import GCC, OF_BINUTILS, TOP, Folder, needs

EXAMPLES = os.path.join(TOP, "examples", "c")
BINUTILS = "riscv64-unknown-elf-"
FIXED = [f"-ffixed-x{number}" for number in (24, 25, 26, 27, 29, 30, 31)]
OPTIONS = ["-O2", "-march=rv32imc", "-mabi=ilp32", "-fno-builtin", "-ffreestanding", *FIXED]


class Refusals(Folder):
    def test_rows(self):
        rows = [("\tecall\n", "ecall: a sandbox calls its host through gates alone"), ("\t.word 5\n", ".word in a code section"),
                ("\tmv a0,s8\n", "s8 is the sandbox's own register: compile with -ffixed-x24"),
                ("\tlui a5,%tprel_hi(x)\n", "thread-local data: there is one thread, so compile without _Thread_local and __thread"),
                ("\t.popsection\n", ".popsection without .pushsection")]
        for image_format in (1, 2, WORDS):
            for text, wanted in rows:
                with self.assertRaises(Refused) as caught:
                    rewritten("a.s", "\t.text\nmain:\n" + text, PASSES, image_format)
                self.assertEqual(str(caught.exception), f"a.s:3: {wanted}")
        with self.assertRaises(Refused) as caught:
            rewritten("a.s", "main:\tmv a0,t4\n", PASSES, WORDS)
        self.assertEqual(str(caught.exception), "a.s:1: t4 (x29) is the sandbox's own register in words: compile with -ffixed-x29; "
                                                "assembly that names it wants --format 2")


class WeakNames(Folder):
    def test_the_call_of_an_alias_is_a_jump(self):
        """A constructor in C++ has two names. An address is wanted where nothing may define the name."""
        text = "\t.text\n\t.weak f\nf:\tret\n\t.weak g\n\t.set g,f\n\t.weak h\nmain:\tcall g\n\tcall h\n"
        for image_format in (1, 2, WORDS):
            made = rewritten("a.s", text, PASSES, image_format)
            self.assertIn("jal ra, g", made)
            self.assertNotIn("jal ra, h", made)


@needs(*OF_BINUTILS)
class Attributes(Folder):
    def test_the_objects_code_has_16_bit_forms(self):
        """By this disassemblers and debuggers read it."""
        path = self.path("made.o")
        for image_format in (1, 2, WORDS):
            text = rewritten("a.s", '\t.attribute arch, "rv32i2p1_m2p0_c2p0"\n\t.text\nmain:\tret\n', PASSES, image_format)
            words = [f"{BINUTILS}as", "-march=rv32imc", "-mabi=ilp32", "-mno-relax", "-mno-arch-attr", "-o", path, "-"]
            subprocess.run(words, input=text.encode(), check=True)
            told = subprocess.run([f"{BINUTILS}readelf", "-A", path], capture_output=True, check=True, text=True).stdout
            self.assertRegex(told, "Tag_RISCV_arch: .*_c2p0")

    def test_files_in_folders(self):
        """As clang names them, in code and among data, which `as` takes in one name."""
        for before in ("main:\tret\n", "\t.data\n", "\t.data\nx:\t.word 3\n"):
            text = rewritten("a.s", before + '\t.file\t2 "/folder" "gates.h"\n', PASSES, WORDS)
            self.assertIn('\t.file\t2 "/folder/gates.h"', text.splitlines())


def labels_of(rewriting, path):
    """By each label, the section that it is in and its place there, as `as` has it in an object that it makes at a path."""
    words = [f"{BINUTILS}as", "-march=rv32imc", "-mabi=ilp32", "-mno-relax", "-mno-arch-attr", "--keep-locals", "-o", path, "-"]
    subprocess.run(words, input=rewriting.text().encode(), check=True)
    listing = subprocess.run([f"{BINUTILS}nm", "--defined-only", "--special-syms", path], capture_output=True, check=True, text=True).stdout
    return {name: int(place, 16) for place, kind, name in map(str.split, listing.splitlines()) if kind in "tTwW"}


@needs(GCC)
class Places(Folder):
    """The model by which `packing` fits code into bundles."""

    def compare(self, name, image_format, is_movable):
        assembly = subprocess.run([GCC, "-S", *OPTIONS, "-o", "-", os.path.join(EXAMPLES, f"{name}.c")], check=True,
                                  capture_output=True, text=True).stdout
        rewriting = Rewriting(f"{name}.s", assembly, PASSES, image_format, is_movable)
        wanted, count = labels_of(rewriting, self.path("made.o")), 0
        for code in rewriting.code.values():
            for piece, place in zip(code, places(code, image_format)):
                if piece.is_mark:
                    self.assertEqual(place, wanted[piece.name], f"{name}, format {image_format}: {piece.name}")
                    count += 1
        self.assertGreater(count, 5)

    def test_examples(self):
        for name in ("json", "regex"):
            for image_format, is_movable in ((1, False), (1, True), (2, False), (2, True), (WORDS, True)):
                self.compare(name, image_format, is_movable)


class Addresses(Folder):
    """How a program that can be moved gets an address."""
    TEXT = "main:\tla a0,far+8\n\tla a1,near\n\tla sp,far\n\tret\n\t.section .sdata,\"aw\"\nnear:\t.word 1\n"

    def test_rows(self):
        sum_of = {1: "c.add a0, x26", 2: "c.add a0, x26", WORDS: "add a0, a0, x26"}
        for image_format, added in sum_of.items():
            lines = [line.strip() for line in rewritten("a.s", self.TEXT, (), image_format, True).splitlines()]
            lines = [line for line in lines if not line.startswith(".")]
            lines = lines[lines.index("main:"):]
            far = ["lui a0, %hi(far+8)", added, "addi a0, a0, %lo(far+8)"]
            self.assertEqual(lines[1:4], far if image_format != WORDS else [far[0], far[2], far[1]])
            self.assertEqual(lines[4], "addi a1, x26, %lo(near)")
            self.assertEqual("add sp, sp, x26" in lines or "c.add sp, x26" in lines, image_format == 1)  # else masks give the base
