"""Tests of programs whose code is larger than a jump reaches: `tools/unit_tests.py tools test_far.py`. They are skipped where a
compiler or the program isn't there."""
import re
import subprocess

from suygapid.elf import islands as islands_module
from suygapid.elf.elf import Elf
from suygapid.elf.tools import binutil
from testing import GCC, SFI, SFI_CC, Folder, needs, needs_program

FILES, FUNCTIONS, PAD = 6, 12, 560_000  # sources, what each has of functions, and the bytes of code between two sources
HEAD = """#include <stdint.h>
typedef uint32_t (*function)(uint32_t, int);
extern const function table[];
"""
# Each calls functions of other sources by name, the last of them as a tail call, and by a pointer. Which, the numbers say.
FUNCTION = """uint32_t f{own}(uint32_t x, int depth) {{
    x = x * {factor}u + {own};
    if (depth <= 0) return x ^ {own};
    switch ((x >> 7) % 70) {{
{cases}
    }}
    if (x & 64) x ^= f{first}(x, depth - 2);
    if (x & 128) x += table[x % {count}](x, depth - 3);
    return f{second}(x, depth - 1);
}}
"""
MAIN = """
const function table[] = {{ {names} }};
static uint32_t again(uint32_t x) {{
    uint32_t sum = 0;
    for (int i = 0; i < {count}; i++)
        sum = sum * 31 + table[i](x + i, 12);
    return sum;
}}
int main(void) {{
    uint32_t sum = again(1) ^ again(99);
    for (int i = 0; i < {count}; i++)
        for (int j = 0; j < i; j++)
            if (table[i] == table[j]) return 1;
    return (int)(sum % 1000000007);
}}
"""


def source(number):
    """One of the sources. Its functions call those of all others."""
    count, made = FILES * FUNCTIONS, [HEAD]
    made += [f"uint32_t f{own}(uint32_t, int);\n" for own in range(count)]
    for own in range(number * FUNCTIONS, (number + 1) * FUNCTIONS):
        cases = "\n".join(f"    case {case}: x {'+^'[case % 2]}= {(own * 70 + case) * 2654435761 % 2**32}u; break;" for case in range(70))
        made.append(FUNCTION.format(own=own, factor=2 * own + 1664525, cases=cases, first=(own * 29 + 17) % count, second=(own * 43 + 31) % count, count=count))
    return "".join(made)


def all_sources():
    count = FILES * FUNCTIONS
    last = HEAD + "".join(f"uint32_t f{own}(uint32_t, int);\n" for own in range(count))
    last += MAIN.format(names=", ".join(f"f{own}" for own in range(count)), count=count)
    return [*map(source, range(FILES)), last]


@needs(GCC)
class Far(Folder):
    """A program of some 4 MB of code, most of which does nothing."""

    def files(self):
        """Sources, and behind each an object with code that the linker keeps for its symbol."""
        found = []
        for number, text in enumerate(all_sources()):
            lines = [".option norelax", f'.section .text.pad{number},"ax"', f".globl pad{number}", f"pad{number}: .rept {PAD // 4}", "xor a0,a1,a2", ".endr", "ebreak", ""]
            pad = self.path(f"pad{number}.o")
            subprocess.run([binutil("as"), "-march=rv32im", "-mabi=ilp32", "-mno-arch-attr", "-o", pad, "-"], input="\n".join(lines).encode(), check=True)
            found += [self.write(f"far{number}.c", text), pad]
        return found

    def call(self, *words):
        """The status of sfi-cc, and what it says."""
        pads = [f"-Wl,-u,pad{number}" for number in range(FILES + 1)]
        done = subprocess.run([SFI_CC, "--program", SFI, "-w", "-O1", *pads, *words, *self.files()], capture_output=True, text=True, check=False)
        return done.returncode, done.stderr

    def islands(self, program):
        """The symbols before islands, and the bytes of the program's code."""
        elf = Elf(program)
        return [name for name in elf.symbols if name.startswith("far.jumps.")], sum(len(it.content) for it in elf.loaded() if it.is_code)

    def native(self):
        files = [self.write(f"native{number}.c", text) for number, text in enumerate(all_sources())]
        main = self.write("printed.c", "#include <stdio.h>\nint program(void);\n#undef main\nint main(void) { printf(\"%d\", program()); return 0; }\n")
        subprocess.run(["gcc", "-w", "-O1", "-Dmain=program", "-o", self.path("native"), *files, main], check=True)
        return int(subprocess.run([self.path("native")], stdout=subprocess.PIPE, check=True).stdout)

    def ran(self, image, *words):
        with open(image, "rb") as file:
            done = subprocess.run([SFI, "run", *words, "--rounds", "1000", "--quantum", "1000000"], stdin=file, stdout=subprocess.PIPE, check=True)
        return int(re.search(rb"exit=(\d+)", done.stdout)[1])

    def test_bundles_say_their_limit(self):
        for image_format, most in (("1", 65536), ("2", 1048576)):
            status, told = self.call("-o", self.path("far.elf"), "--format", image_format)
            self.assertEqual(status, 1)
            self.assertRegex(told, rf"^sfi-cc: far.elf: the code has \d+ bytes, \d+ more than format {image_format} has room for \(at most {most}\)\n$")

    def test_a_function_too_large(self):
        text = "main:\n\tj .Lend\n" + "\txor a0,a1,a2\n" * 263000 + ".Lend:\n\tret\n"
        done = subprocess.run([SFI_CC, "--passes", "", "-o", self.path("large.elf"), self.write("large.s", "\t.globl main\n" + text)],
                              capture_output=True, text=True, check=False)
        self.assertEqual((done.returncode, done.stderr),
                         (1, "sfi-cc: large.elf: a jump of main to main doesn't reach, over a function too large: one may have nearly 1048576 bytes of code\n"))

    @needs("gcc")
    @needs_program
    def test_runs_as_natively(self):
        wanted = self.native()
        for words in ((), ("--movable",), ("--library", "newlib")):
            with self.subTest(words):
                image, program = self.path("far.image"), self.path("far.elf")
                self.assertEqual(self.call("-o", image, "--keep", program, *words), (0, ""))
                islands, size = self.islands(program)
                self.assertGreater(size, 4 * PAD)
                self.assertGreater(len(islands), size // islands_module.REACH)
                self.assertEqual(self.ran(image), wanted)
