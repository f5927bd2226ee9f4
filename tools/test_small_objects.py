"""Tests of small objects that have no room: `tools/unit_tests.py tools`. What fewer of them make of gcc's assembly is what gcc
makes itself with a lower limit."""
import subprocess

from suygapid.cc.compilers import compiled
from suygapid.commands.cc import LIMITS
from suygapid.elf.small import LIMIT, SMALL, options_of, with_limit
from testing import GCC, SFI_CC, Folder, needs

DATA = 0x80000000
OBJECTS = """\
struct pair { int one, two; long long sum; };
struct pair zeroed;
static struct pair given = {1, 2, 3};
const struct pair constant = {4, 5, 6};
static const int table[8] = {1, 2, 3, 4, 5, 6, 7, 9};
int count, numbers[6];
static int five = 5;
char text[40] = "text";

int changed(int it) {
    struct pair local = {it, five, 7};
    zeroed.one = it;
    zeroed.sum += given.two + given.sum + local.sum;
    given.one = numbers[it % 6];
    text[it & 31] = count++;
    return table[it & 7] + constant.two + (five += it);
}

double scaled(double it) {
    return it * 3.25 + 1e10;
}

long double longer(long double it) {
    return it * 3.25L + 1e10L;
}
"""
MORE = "\t.section .sdata.more,\"aw\"\n\t.globl more\nmore:\t.zero 64\n"


def program(count):
    """A program that uses so many objects of 64 bytes, and one more."""
    objects = "".join(f"int object{number}[16];\n" for number in range(count)) + "extern int more[];\n"
    uses = "".join(f"        sum += object{number}[turn] += turn;\n" for number in range(count))
    return f"{objects}int main(void) {{\n    int sum = *more;\n    for (int turn = 0; turn < 16; turn++) {{\n{uses}    }}\n    return sum & 1;\n}}\n"


@needs(GCC)
class SmallObjects(Folder):
    def assembly(self, level, limit):
        words = [*options_of(GCC, []), f"{LIMIT}{limit}", level]
        return self.read(compiled(GCC, words, self.write("objects.c", OBJECTS), self.path(f"{level}{limit}"))[0])

    def test_fewer_as_by_gcc(self):
        for level in ("-O0", "-O2", "-Os"):
            made = {limit: self.assembly(level, limit) for limit in LIMITS}
            self.assertEqual(len(set(made.values())), len(LIMITS))
            for limit in LIMITS[1:]:
                self.assertEqual(with_limit(made[SMALL], limit), made[limit], (level, limit))

    def test_objects_without_sections_of_their_own(self):
        self.assertIsNone(with_limit(self.assembly("-fno-data-sections", SMALL), 8))

    def test_the_compiler_runs_once(self):
        """With one more, whose size its source doesn't tell, 30 objects have room, 31 haven't, as the linker says."""
        compiler = self.write("compiler", f'#!/bin/sh\necho "$*" >>{self.path("words")}\nexec {GCC} "$@"\n', 0o755)
        more = self.write("more.s", MORE)
        for count, is_small in ((30, True), (31, False), (32, False)):
            self.write("words", "")
            file, output = self.write("many.c", program(count)), self.path("many.elf")
            subprocess.run([SFI_CC, "--cc", compiler, "--no-cache", "-o", output, file, more], check=True)
            self.assertEqual(sum(" -S " in f" {line} " for line in self.read("words").splitlines()), 1)
            told = subprocess.run(["riscv64-unknown-elf-nm", output], capture_output=True, check=True, text=True).stdout
            places = [int(line.split()[0], 16) - DATA for line in told.splitlines() if line.split()[-1].startswith("object")]
            self.assertEqual(len(places), count)
            self.assertEqual(max(places) < 2048, is_small, count)
