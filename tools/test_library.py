"""Tests of sfi-library: `tools/unit_tests.py tools`. What each program prints is compared with what the C
standard has it print. They are skipped where the compiler, the sources or the program isn't there. The library is kept,
so that only the first run compiles it."""
import glob
import os
import re
import subprocess
import tempfile
import unittest
from unittest import mock

from suygapid import kept
from suygapid.cc.compilers import Failed
from suygapid.library import newlib, softfloat, sources
from testing import CLANG, GCC, NEWLIB, SFI, SFI_CC, TOOLS, needs, needs_program

SFI_LIBRARY = os.path.join(TOOLS, "sfi-library")

PROGRAM = r"""
#include <errno.h>
#include <math.h>
#include <sys/types.h>
#include <regex.h>
#include <setjmp.h>
#include <stdio.h>
#include <stdlib.h>
#include <string.h>
#include <sys/time.h>
#include <time.h>
static jmp_buf back;
static void leave(int depth) { if (depth) leave(depth - 1); else longjmp(back, 0); }
static void last(void) { fputs("last\n", stderr); }
int main(int argc, char **argv) {
    char line[80], *end;
    int number;
    atexit(last);
    if (argc != 1 || argv[0][0] || argv[1] || scanf("%d %79s", &number, line) != 2) return 1;
    printf("%d %s|%5.2f|%g|%e|%a\n", number, line, 2.25, 1e100, -1.5e-7, 0.1);
    printf("%.15f %.15f %.15f\n", sqrt(2), sin(1), pow(2, 0.1));
    printf("%.17g %s\n", strtod("6.02214076e23xyz", &end), end);
    volatile int set = setjmp(back);
    if (set == 0) leave(7);
    printf("%d\n", set);
    regex_t regex;
    regmatch_t found[2];
    if (regcomp(&regex, "a(b+)c", REG_EXTENDED) || regexec(&regex, "xxabbbcx", 2, found, 0)) return 2;
    printf("%d %d\n", (int)found[1].rm_so, (int)found[1].rm_eo);
    for (int turn = 0; turn < 1000; turn++) { /* far more than the heap */
        char *room = malloc(5000 + turn);
        if (room == NULL) return 3;
        memset(room, turn, 5000 + turn);
        free(room);
    }
    printf("%d %d\n", malloc(1 << 25) == NULL, errno == ENOMEM);
    printf("%d %d\n", fopen("file", "r") == NULL, errno == ENOENT);
    struct timeval now = {7, 7};
    printf("%d %d %d %d\n", gettimeofday(&now, NULL), (int)now.tv_sec, (int)now.tv_usec, (int)time(NULL));
    while (fgets(line, sizeof line, stdin)) fprintf(stdout, "<%s>", line);
    return 42;
}
"""
PRINTED = """7 words| 2.25|1e+100|-1.500000e-07|0x1.999999999999ap-4
1.414213562373095 0.841470984807897 1.071773462536293
6.0221407599999999e+23 xyz
1
3 6
1 1
1 1
0 0 0 0
<
><end
>"""


# What the C standard has errno be, where it requires a value.
ERRORS = r"""
#include <errno.h>
#include <math.h>
#include <stdio.h>
static void told(const char *name, double answer, int error) {
    printf("%s %g %d\n", name, answer, error == EDOM ? 1 : error == ERANGE ? 2 : error);
}
#define TRY(call) do { errno = 0; double answer = call; told(#call, answer, errno); } while (0)
volatile double zero, one = 1, two = 2, big = 1e300;
volatile float small = 1;
int main(void) {
    if (math_errhandling != MATH_ERRNO) return 1;
    TRY(sqrt(-one)); TRY(acos(two)); TRY(log(-one)); TRY(log(zero)); TRY(exp(big)); TRY(cosh(big)); TRY(sinh(-big));
    TRY(pow(-one, 0.5)); TRY(pow(big, two)); TRY(pow(zero, -one)); TRY(pow(-big, 3)); TRY(pow(-1 / big, 3));
    TRY(pow(zero, two));
    TRY(sqrt(two)); TRY(sqrtf(-small)); TRY(logf(small - 1)); TRY(powf(small - 1, -small)); TRY(powf(-small * 1e20f, 3));
    return 0;
}
"""
ERRORS_TOLD = """sqrt(-one) nan 1
acos(two) nan 1
log(-one) nan 1
log(zero) -inf 2
exp(big) inf 2
cosh(big) inf 2
sinh(-big) -inf 2
pow(-one, 0.5) nan 1
pow(big, two) inf 2
pow(zero, -one) inf 2
pow(-big, 3) -inf 2
pow(-1 / big, 3) -0 2
pow(zero, two) 0 0
sqrt(two) 1.41421 0
sqrtf(-small) nan 1
logf(small - 1) -inf 2
powf(small - 1, -small) inf 2
powf(-small * 1e20f, 3) -inf 2
"""
FUNCTION = re.compile(r"/\* (.*?):\d+:\w+ \*/ extern .*?\b(\w+) \(")  # a line of -aux-info
DEFINED = re.compile(r"^\s*([A-Za-z_][\w.$]*):|^\s*\.(?:set|equ|comm)\s+([A-Za-z_][\w.$]*)", re.M)


@needs_program
@needs(GCC, NEWLIB)
class Library(unittest.TestCase):
    @classmethod
    def setUpClass(cls):
        room = tempfile.TemporaryDirectory()
        cls.addClassCleanup(room.cleanup)
        cls.folder = room.name
        cls.library = os.path.join(cls.folder, "library")
        subprocess.run([SFI_LIBRARY, cls.library], check=True)

    def ran(self, text, *words, given=b"", name="program.c"):
        """What `sfi run` says of a program with some input, and the bytes that it put."""
        path = os.path.join(self.folder, name)
        with open(path, "w", encoding="utf-8") as file:
            file.write(text)
        done = subprocess.run([SFI_CC, "--program", SFI, *words, "--library", "newlib", path], check=True,
                              capture_output=True)
        image, self.said = done.stdout, done.stderr.decode()
        line = subprocess.run([SFI, "run", "--rounds", "100", "--quantum", "1000000", "--input", given.hex()], input=image,
                              capture_output=True, check=True).stdout.decode()
        before, _, put = line.partition(" out=")
        return before.split(" steps=")[0], bytes.fromhex(put).decode()

    def names(self, text, *words):
        """The names in a linked program."""
        path, program = os.path.join(self.folder, "source.c"), os.path.join(self.folder, "program.elf")
        with open(path, "w", encoding="utf-8") as file:
            file.write(text)
        subprocess.run([SFI_CC, "-o", program, *words, path], check=True)
        listing = subprocess.run(["riscv64-unknown-elf-nm", "--defined-only", program], check=True, capture_output=True, text=True).stdout
        return {line.split()[-1] for line in listing.splitlines()}

    def test_all_of_it(self):
        self.assertEqual(self.ran(PROGRAM, given=b" 7 words\nend\n"), ("sandbox=0 exit=42", PRINTED[:-1] + "last\n>"))  # standard output goes by lines

    def test_how_it_ends(self):
        text = "#include <stdlib.h>\n#include <assert.h>\nint main(void) { %s }\n"
        for ending, wanted in (("exit(3);", "3"), ("abort();", "134"), ("_Exit(4);", "4"), ("assert(0);", "134"), ("", "0")):
            self.assertEqual(self.ran(text % ending)[0], f"sandbox=0 exit={wanted}", ending)

    def test_destructors(self):
        """Those of C by their priorities, the last first, and those of objects in C++, after what main did."""
        ends = "__attribute__((destructor)) void last(void) { puts(\"last\"); }\n"
        text = f"#include <stdio.h>\n{ends}{ends.replace('destructor', 'destructor(101)').replace('last', 'after')}"
        self.assertEqual(self.ran(text + "int main(void) { puts(\"main\"); return 3; }\n"),
                         ("sandbox=0 exit=3", "main\nlast\nafter\n"))
        text = ("extern \"C\" int puts(const char *);\nstruct End { const char *text; ~End() { puts(text); } };\n"
                "static End first = {\"first\"}, second = {\"second\"};\nint main() { puts(\"main\"); return 3; }\n")
        self.assertEqual(self.ran(text, name="program.cc"), ("sandbox=0 exit=3", "main\nsecond\nfirst\n"))

    def test_assertion(self):
        """What newlib says of one, by a program without its printf; nor has one that prints numbers the other printf."""
        text = "#include <assert.h>\n#line 17 \"given.c\"\nint main(void) { assert(1 < 0); }\n"
        wanted = 'assertion "1 < 0" failed: file "given.c", line 17, function: main\n'
        self.assertEqual(self.ran(text), ("sandbox=0 exit=134", wanted))
        self.assertFalse({"_vfprintf_r", "_vfiprintf_r"} & self.names(text, "--library", "newlib"))
        text = "#include <stdio.h>\nint main(int n, char **v) { printf(\"%g\", n * 0.5); }\n"
        self.assertNotIn("_vfiprintf_r", self.names(text, "--library", "newlib"))

    def test_errors_of_math(self):
        self.assertEqual(self.ran(ERRORS), ("sandbox=0 exit=0", ERRORS_TOLD))

    @needs(CLANG)
    def test_by_clang(self):
        self.assertEqual(self.ran(ERRORS, "--cc", "clang"), ("sandbox=0 exit=0", ERRORS_TOLD))

    def test_new(self):
        """Memory of C++ where nothing else names malloc and free; and nothing is said."""
        text = ("int main() { int *one = new int(5), *many = new int[9]; many[8] = *one; delete one; int last = many[8];\n"
                "delete[] many; return last; }\n")
        self.assertEqual(self.ran(text, name="new.cc")[0], "sandbox=0 exit=5")
        self.assertRegex(self.said, r"\A(sfi-cc: .*, which (takes some minutes; it is|may take a minute; they are) kept\n)?\Z")

    def test_headers(self):
        """Each that declares functions has one, but complex.h, which tgmath.h includes."""
        include, defined, without = os.path.join(self.library, "include"), set(), []
        for path in glob.glob(os.path.join(self.library, "*.asm")):
            with open(path, encoding="utf-8") as file:
                defined.update(name for names in DEFINED.findall(file.read()) for name in names)
        for name in sorted(it for it in os.listdir(include) if it.endswith(".h")):
            told, path = os.path.join(self.folder, "told"), os.path.realpath(os.path.join(include, name))
            subprocess.run([GCC, "-march=rv32imc", "-mabi=ilp32", "-w", "-D_GNU_SOURCE", "-isystem", include,
                            "-include", "stdio.h", "-x", "c", "-S", "-o", os.devnull, "-aux-info", told, path], check=True)
            with open(told, encoding="utf-8") as file:
                names = {function for place, function in FUNCTION.findall(file.read()) if os.path.realpath(place) == path}
            without += [name] if names and not names & defined else []
        self.assertEqual(without, ["complex.h"])
        for name in ("pthread", "threads", "dirent", "termios", "spawn", "iconv", "fenv"):
            self.assertFalse(os.path.exists(os.path.join(include, f"{name}.h")), name)

    def test_what_is_not_called_costs_nothing(self):
        text = "void _start(void) {}\nint main(void) { return 0; }\n"
        self.assertEqual(self.names(text), self.names(text, "--library", "newlib"))

    def test_another_folder_stays(self):
        file = os.path.join(self.folder, "other", "file")
        os.makedirs(os.path.dirname(file))
        with open(file, "w", encoding="utf-8"):
            pass
        done = subprocess.run([SFI_LIBRARY, os.path.dirname(file)], capture_output=True, check=False, text=True)
        self.assertEqual((done.returncode, done.stderr), (2, f"sfi-library: {os.path.dirname(file)} is there, and is no "
                                                             "library\n"))
        self.assertTrue(os.path.exists(file))


@needs(GCC)
class Released(unittest.TestCase):
    """A machine without the sources takes what a release has made of them."""

    def setUp(self):
        room = tempfile.TemporaryDirectory()
        self.addCleanup(room.cleanup)
        for where, name, it in ((kept, "RELEASED", room.name), (sources.Package, "where", lambda _: None)):
            patched = mock.patch.object(where, name, it)
            patched.start()
            self.addCleanup(patched.stop)
        self.room = room.name

    def test_what_is_there(self):
        for it in (newlib, softfloat):
            place = os.path.join(self.room, it.released_name(GCC))
            os.mkdir(place)
            self.assertEqual(it.folder_of(GCC), place)

    def test_nothing_is_there(self):
        self.assertIsNone(softfloat.folder_of(GCC))
        with self.assertRaisesRegex(Failed, "newlib-source"):
            newlib.folder_of(GCC)
