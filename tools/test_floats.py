"""Tests of floating point by sfi-cc: `tools/unit_tests.py tools`. They are skipped where a compiler, GCC's
sources or the program isn't there."""
import glob
import os
import subprocess
from dataclasses import replace

from suygapid.library import softfloat
from suygapid.library.sources import GCC_SOURCE
from testing import COMPILERS, FLOATS, GCC, SFI, SFI_CC, Folder, needs, needs_a_compiler, needs_program

# The sum of bits that the IEEE 754 formats fix: 3.5 * 2, 1/3 in 32 and 64 bits, (3+4i)/(1-2i) = -1+2i, 1.5 ** 5.
PROGRAM = """
volatile double seven = 3.5, third = 3;
volatile float single = 3;
volatile _Complex double quotient = 3 + 4i;
volatile long double wide = 10;
int main(void) {
    union { double value; unsigned long long bits; } d = { 1 / third };
    union { float value; unsigned bits; } f = { 1 / single };
    _Complex double q = quotient / (1 - 2i);
    volatile double power = 1.5;
    if ((int)(seven * 2) != 7 || d.bits != 0x3fd5555555555555 || f.bits != 0x3eaaaaab)
        return 1;
    if (__real__ q != -1 || __imag__ q != 2 || __builtin_powi(power, CONSTANT) != 7.59375)
        return 2;
    return wide / 4 == 2.5 && (unsigned long long)(wide * 1e10) == 100000000000 ? 42 : 3;
}
"""


class Floats(Folder):
    def setUp(self):
        super().setUp()
        self.file = self.write("floats.c", PROGRAM.replace("CONSTANT", "third > 1 ? 5 : 4"))

    def started(self, *words, **variables):
        return subprocess.Popen([SFI_CC, "-w", "--program", SFI, *words, self.file], stdout=subprocess.PIPE,
                                stderr=subprocess.PIPE, env={**os.environ, **variables})

    def answer(self, process):
        image, told = process.communicate()
        self.assertRegex(told.decode(), r"\A(sfi-cc: .*, which may take a minute, once: kept in .*\n)?\Z")
        return subprocess.run([SFI, "run", "--quantum", "100000"], input=image, capture_output=True, check=True).stdout

    @needs_program
    @needs_a_compiler
    @needs(FLOATS)
    def test_answers(self):
        for compiler in COMPILERS:
            self.assertIn(b"exit=42 ", self.answer(self.started("--cc", compiler)))

    @needs_program
    @needs(GCC, FLOATS)
    def test_two_at_once(self):
        """Both make the functions, one folder stays, and nothing of the other."""
        home = os.path.join(self.folder, "home")
        for process in [self.started("--cc", GCC, XDG_CACHE_HOME=home) for _ in range(2)]:
            self.assertIn(b"exit=42 ", self.answer(process))
        self.assertEqual(sorted(name.rsplit("-", 1)[0] for name in os.listdir(os.path.join(home, "suygapid"))),
                         sorted({"library", "python", "results", "runtime", "softfloat"} | ({GCC_SOURCE.name} if os.path.isfile(GCC_SOURCE.path()) else set())))
        names = [os.path.basename(path) for path in glob.glob(os.path.join(home, "suygapid", "softfloat-*", "*"))]
        self.assertTrue({"doubles.asm", "divsf3.asm", "divtc3.asm", "fixunssfdi.asm"} <= set(names))
        self.assertEqual([name for name in names if not name.endswith(".asm")], [])

    @needs(GCC)
    def test_sources_that_are_not_there(self):
        lines = self.started("--cc", GCC, GCC_SOURCE="/nowhere").communicate()[1].decode().splitlines()
        self.assertEqual(lines, ["sfi-cc: /nowhere, which GCC_SOURCE names, isn't there"])

    def test_what_to_install(self):
        self.assertEqual(replace(GCC_SOURCE, archives="/nothing/*").where(), None)
        self.assertIn("gcc-12-source", GCC_SOURCE.wanted())

    def test_what_speaks_of_floats(self):
        for text, wanted in (("\tcall\t__muldf3\n", True), ("\ttail\t__floatundisf\n", True), ("\tcall\t__divdc3\n", True),
                             ("\tcall\t__udivdi3\n\tcall\t__popcountsi2\n", False), ("\tcall\tmuldf3\n", False)):
            self.write("floats.c", text)
            self.assertEqual(softfloat.speaks_of_floats([self.file]), wanted, text)

    def test_every_function(self):
        """libgcc's own list for a machine of 32 bits without floating point: 57 of soft-fp, of which eight are sfi-cc's own, and
        those of libgcc2."""
        arithmetic = [f"{name}{mode}f3" for name in ("add", "sub", "mul", "div") for mode in "sdt"]
        others = [f"{name}{mode}f2" for name in ("neg", "eq", "ge", "le", "unord") for mode in "sdt"]
        numbers = [f"fix{uns}{mode}f{i}i" for uns in ("", "uns") for mode in "sdt" for i in "sd"]
        numbers += [f"float{un}{i}i{mode}f" for un in ("", "un") for mode in "sdt" for i in "sd"]
        names = arithmetic + others + numbers + ["extendsfdf2", "extendsftf2", "extenddftf2", "truncdfsf2", "trunctfsf2",
                                                 "trunctfdf2"]
        self.assertEqual(len(names), 57)
        self.assertEqual([name for name in names if not softfloat.SOFT_FP.fullmatch(name)],
                         ["adddf3", "subdf3", "muldf3", "divdf3", "floatsidf", "floatdidf", "floatunsidf", "floatundidf"])
        self.assertEqual([name for name in ("fixdfti", "extendhfsf2", "floattidf", "addxf3")
                          if softfloat.SOFT_FP.fullmatch(name)], [])
