"""Tests of code in words with single masks: `tools/unit_tests.py tools/suygapid/passes`. Both checkers accept what the tools make, and
bench/interpreter.c does with it what native programs do."""
import os
import re
import struct
import subprocess
import sys
import unittest

import second_checker
from suygapid.elf.linking import place_of
from suygapid.image import layout
from suygapid.passes.improving import PASSES
from suygapid.passes.instructions import Op
from suygapid.passes.placement import places
from suygapid.passes.random_c import Program
from suygapid.passes.rewriting import Rewriting, rewritten
from suygapid.passes.test_passes import code
from suygapid.passes.test_random import HERE, NATIVE, STACK, native_answer
from suygapid.passes.test_rewriting import labels_of
from suygapid.passes.typed import SINGLE, free_addresses
from suygapid.passes.word_places import part_sizes
from testing import GCC, SFI, SFI_CC, SFI_IMAGE, TOOLS, TOP, Folder, by_turns, needs, needs_program

EXAMPLES = os.path.join(TOP, "examples", "c")
CASES = {"crc32": "prose", "sort": "sort-numbers", "json": "json-tree", "regex": "regex-class", "lz": "prose", "stack": "stack-primes",
         "matrix": "matrix-bytes", "wordcount": "prose"}
WAYS = ((), ("-Os", "--movable"), ("--debug", "--stack", "65536"), ("-O3", "-funroll-loops"), ("-O0",))
SEEDS = (1, 2, 3)


def made(text, passes=(), is_movable=False, is_checking=False):
    """The instructions that become of one function's."""
    lines = rewritten("a.s", f"main:\t{text}\n", passes, SINGLE, is_movable, is_checking=is_checking).splitlines()
    lines = [line.strip() for line in lines if line.startswith("\t") and not line.strip().startswith(".")]
    return "; ".join(lines)


class Masks(unittest.TestCase):
    def test_rows(self):
        rows = [("lw a0,8(a1)", "and x29, a1, x27; lw a0, 8(x29)"), ("lw a0,8(sp)", "lw a0, 8(sp)"), ("sw a0,4(zero)", "and x29, zero, x27; sw a0, 4(x29)"),
                ("mv sp,a0", "and sp, a0, x27"), ("li gp,0", "and gp, zero, x27"), ("addi sp,sp,-2000; nop", "addi sp, sp, -2000; and sp, sp, x27; nop"),
                ("sub sp,sp,a0", "sub sp, sp, a0; and sp, sp, x27"), ("lw tp,0(a0)", "and x29, a0, x27; lw tp, 0(x29); and tp, tp, x27"),
                ("addi sp,sp,-2000; sw ra,1020(sp)", "addi sp, sp, -2000; sw ra, 1020(sp)"),
                ("addi sp,sp,-2000; sw ra,1021(sp)", "addi sp, sp, -2000; and sp, sp, x27; sw ra, 1021(sp)"),
                ("ret", "and x30, ra, x25; or x30, x30, x24; jalr zero, 0(x30)"),
                ("la tp,far", "lui tp, %hi(far); and tp, tp, x27; addi tp, tp, %lo(far); and tp, tp, x27")]
        for text, wanted in rows:
            self.assertEqual(made(text), wanted, text)

    def test_addresses_of_movable_code(self):
        """One mask gives no base, so it is added."""
        self.assertEqual(made("la sp,far", is_movable=True),
                         "lui sp, %hi(far); and sp, sp, x27; add sp, sp, x26; and sp, sp, x27; addi sp, sp, %lo(far); and sp, sp, x27")

    def test_room_in_movable_code(self):
        """So is it to the objects' end, with which a frame that gets masks is compared."""
        self.assertTrue(made("addi sp,sp,-2000", is_movable=True, is_checking=True).startswith(
            "lui x29, %hi(__sfi_end+2000); and x29, x29, x27; add x29, x29, x26; and x29, x29, x27; addi x29, x29, %lo(__sfi_end+2000); "
            "and x29, x29, x27; bgeu sp, x29, .+8; ebreak"))

    def test_largest_count(self):
        """x27 is no offset."""
        self.assertTrue(made("sub sp,sp,a0", is_checking=True).startswith("sub x29, x27, x26; and x29, x29, x27; bgeu x29, a0, .+8; ebreak; sub sp"))

    def test_sizes(self):
        rows = [("lw a0,8(a1)", (4, 4)), ("mv sp,a0", (4,)), ("sub sp,sp,a0", (4, 4)), ("ret", (4, 4, 4)), ("la sp,far", (4, 4, 4, 4)),
                ("lw tp,0(a0)", (4, 4, 4)), ("li gp,4097", (2, 4, 2, 4)),
                ("sw a0,4(zero)", (4, 4))]
        for text, wanted in rows:
            self.assertEqual(part_sizes(code(text)[0], None, SINGLE), wanted, text)
        self.assertEqual(part_sizes(Op("lw", ("a0", "8(t6)"), None), None, SINGLE), (4,))

    def test_registers(self):
        self.assertEqual(free_addresses(code("mv tp,a0"), SINGLE), ("gp", "t6"))
        self.assertEqual(free_addresses(code("mv tp,a0")), ("gp",))
        self.assertEqual(free_addresses(code("mv tp,a0"), 2), ())


@needs_program
@needs(GCC, NATIVE)
class Programs(Folder):
    @classmethod
    def setUpClass(cls):
        room = Folder()
        room.setUp()
        cls.addClassCleanup(room.doCleanups)
        cls.interpreter = room.path("interpreter")
        subprocess.run([NATIVE, "-O2", "-o", cls.interpreter, os.path.join(TOP, "bench", "interpreter.c")], check=True)

    def ran(self, *words, data=b""):
        done = subprocess.run(words, input=data, capture_output=True, check=False)
        self.assertEqual(done.returncode, 0, f"{words}: {done.stderr.decode()}")
        return done.stdout

    def image(self, *words):
        return self.ran(SFI_CC, "--format", SINGLE, "-w", "--jobs", "1", *words)

    def answers(self, image, given=b""):
        """What an image's sandboxes do, which the second checker accepts, too."""
        self.assertEqual(second_checker.judged(bytes.fromhex(image.decode()))[0], 0)
        said = self.ran(self.interpreter, "once", "1000", "1000000", given.hex(), data=image).decode()
        run = [SFI, "run", "--rounds", "1000", "--quantum", "1000000", *["--input", given.hex()] * bool(given)]
        self.assertEqual(self.ran(*run, data=image).decode(), said)
        return [re.sub(r"^sandbox=\d+ | steps=\d+", "", line) for line in said.splitlines()]

    def test_examples(self):
        with open(os.path.join(EXAMPLES, "expected.txt"), encoding="utf-8") as file:
            wanted = {tuple(line.split()[:2]): " ".join(line.split()[2:]) for line in file}
        for number, (name, given) in enumerate(by_turns(CASES.items(), 4)):
            content = self.ran(sys.executable, os.path.join(EXAMPLES, "inputs.py"), given)
            image = self.image(*WAYS[number % len(WAYS)], os.path.join(EXAMPLES, f"{name}.c"))
            self.assertEqual(self.answers(image, content), [wanted[name, given]], name)

    def test_random_programs(self):
        for seed in by_turns(SEEDS, 1):
            path = self.write("random.c", Program(seed).text())
            wanted = native_answer(path, self.folder)
            for way in by_turns(WAYS, 2):
                image = self.image(*way, "--stack", str(STACK), "-I", HERE, path)
                self.assertEqual(self.answers(image), [wanted], f"{seed}, {way}")

    def test_places(self):
        """Of several sandboxes, also moved ones. The bases of their data are single bits."""
        path = self.write("a.c", '#include "gates.h"\nint table[4] = {3, 4, 5, 6};\nint *volatile at = table + 2;\nint main(void) { return at[-1] + *at; }\n')
        for number in (0, 1, 2, 10):
            self.image("--sandbox", str(number), "--movable", "-o", self.path(f"{number}.elf"), path)
        names = [self.path(f"{number}.elf") for number in (0, 1, 2, 10)]
        image = self.ran(SFI_IMAGE, *names)
        self.assertEqual(self.answers(image), ["exit=9 out="] * 4)
        found = layout.parts(bytes.fromhex(image.decode()))
        self.assertEqual([part.data_base for part in found], [1 << bit for bit in (31, 30, 29, 21)])
        self.assertEqual(found[0].reserved(), [0x1800000, found[0].code_size - 4, 1 << 31, (1 << 31) + found[0].data_size - 1])
        moved = self.ran(SFI_IMAGE, "--at", "1000000:800000", names[0])
        self.assertEqual(self.answers(moved), ["exit=9 out="])
        for where, why in (("1000000:c00000", "more than one bit"), ("1000:800000", "zone at zero"), ("1000000:4000", "zone at zero")):
            done = subprocess.run([SFI_IMAGE, "--at", where, names[0]], capture_output=True, text=True, check=False)
            self.assertEqual((done.returncode, why in done.stderr), (1, True), done.stderr)

    def test_the_usual_place(self):
        """It is that of a text, and larger programs lie apart, too."""
        text = ".format single\n" + ".sandbox 1048576\nebreak\n" * 11
        for number, part in enumerate(layout.parts(bytes.fromhex(self.ran(SFI, "build", data=text.encode()).decode()))):
            self.assertEqual(place_of(number, part.code_size, part.data_size, SINGLE), (part.code_base, part.data_base))
        code = struct.pack("<64I", *[0x100073] * 64)
        for size, data_size, numbers in ((256, 1 << 20, range(11)), (1 << 22, 1 << 22, range(9)), (1 << 24, 1 << 20, (0, 10)), (1 << 23, 1 << 30, (0,))):
            places = [place_of(number, size, data_size, SINGLE) for number in numbers]
            made = [layout.Part(base, code * (size // 256), data, data_size, base) for base, data in places]
            self.assertEqual(len(layout.parts(layout.spelled(b"SFIS", made))), len(numbers))

    def test_no_object_lies_where_lui_rounds_to_the_end(self):
        """A data register gets the address of one by `lui`, which a mask leaves in the data then."""
        text = "int table[{}];\nint main(void) {{ for (int i = 0; i < {}; i++) table[i] += i; return table[{}]; }}\n"
        path = self.write("table.c", text.format(440, 440, 439).replace("]; }", "] - 397; }"))
        for options, size in (("--stack", "16"), 8192), ((), 16384):
            image = self.image(*options, path)
            self.assertEqual((self.answers(image), layout.parts(bytes.fromhex(image.decode()))[0].data_size), (["exit=42 out="], size))
        in_words = self.ran(SFI_CC, "--format", "words", "--program", SFI, "--stack", "16", path)
        self.assertEqual(layout.parts(bytes.fromhex(in_words.decode()))[0].data_size, 4096)
        done = subprocess.run([SFI_CC, "--format", SINGLE, "--stack", "16", "--memory", "4096", path], capture_output=True, text=True, check=False)
        self.assertEqual(done.returncode, 1)
        self.assertIn("objects reach into the last 2048 bytes of 4096, where format single has none: --memory 8K gives more", done.stderr)

    def test_a_null_pointer_traps(self):
        path = self.write("null.c", '#include "gates.h"\nint *volatile p;\nint main(void) { return *p; }\n')
        self.assertEqual(self.answers(self.image(path)), ["trap=Load at=00000000 out="])
        known = self.write("known.c", "int main(void) { return *(volatile int *)8; }\n")
        self.assertEqual(self.answers(self.image("-fno-isolate-erroneous-paths-dereference", known)), ["trap=Load at=00000008 out="])
        told = self.image("--where", "0", "--where", "fffffffc", "--where", "100000", path).decode().splitlines()
        self.assertEqual([line.split(": ")[1] for line in told], ["in the zone at zero", "in the zone at zero", "neither the program's code nor its data"])

    def assembly(self, name):
        return self.ran(GCC, "-S", "-O2", "-march=rv32imc", "-mabi=ilp32", "-ffreestanding", "-fno-builtin", "-ffunction-sections",
                        *(f"-ffixed-x{number}" for number in (24, 25, 26, 27, 29, 30, 31)), "-o", "-", os.path.join(EXAMPLES, name)).decode()

    def validated(self, assembly, text, *words):
        """Whether tools/sfi-validate has nothing to say of what became of some assembly."""
        paths = self.write("given.s", assembly), self.write("rewritten.s", text)
        return subprocess.run([os.path.join(TOOLS, "sfi-validate"), *words, *paths], capture_output=True, check=False).returncode == 0

    def test_rewritten_code_does_the_same(self):
        assembly = self.assembly("regex.c")
        found = {is_movable: rewritten("given.s", assembly, PASSES, SINGLE, is_movable) for is_movable in (False, True)}
        self.assertTrue(self.validated(assembly, found[False]))
        self.assertTrue(self.validated(assembly, found[True], "--movable"))
        self.assertFalse(self.validated(assembly, re.sub(r"and x29, s\d, x27", "and x29, a3, x27", found[False], count=1)))

    def test_sizes_are_those_of_as(self):
        assembly = self.assembly("lz.c")
        for is_movable in (False, True):
            rewriting = Rewriting("lz.s", assembly, PASSES, SINGLE, is_movable)
            wanted = labels_of(rewriting, self.path("made.o"))
            found = {piece.name: place for pieces in rewriting.code.values() for piece, place in zip(pieces, places(pieces, SINGLE)) if piece.is_mark}
            self.assertEqual(found, {name: wanted[name] for name in found})


class Layouts(unittest.TestCase):
    def test_reading(self):
        """Both readers in Python take the same places."""
        for code_base, data_base, size in ((0x80000000, 0x40000000, 4096), (0x2000, 0x40000000, 4096), (0x1F00, 0x40000000, 4096), (0x80000000, 0x2000, 4096),
                                           (0x80000000, 0x2000, 0x2000), (0x80000000, 0x60000000, 4096), (0xFFFFEF00, 0x40000000, 256),
                                           (0xFFFFF000, 0x40000000, 256), (0x80000000, 0x1000, 0x2000)):
            part = layout.Part(code_base, struct.pack("<64I", *[0x100073] * 64), data_base, size, code_base)
            image = layout.spelled(b"SFIS", [part])
            fault = ""
            try:
                layout.parts(image)
            except layout.Fault as wrong:
                fault = f"layout fault {wrong.number} {wrong}"
            status, lines = second_checker.judged(image)
            self.assertEqual(fault, lines[-1] if status else "", hex(data_base))
        self.assertRaises(layout.Fault, layout.parts, b"SFIS" + bytes(100))


if __name__ == "__main__":
    unittest.main()
