"""Tests of `sfi-cc --debug` and of `sfi exec` of a linked program: `tools/unit_tests.py tools test_debug.py`. Each program stops at
the line that is marked `here`, or says what is wanted beside it. They are skipped where a compiler or the program isn't there."""
import os
import re
import subprocess
import unittest

from testing import COMPILERS, NEWLIB, SFI, SFI_CC, TOOLS, TOP, Folder, needs, needs_a_compiler, needs_program

SFI_EXEC = str(TOOLS / "sfi-exec")
BEGINNING = """#include <stdlib.h>
#include <string.h>
struct item { int first, second; };
struct item *volatile nowhere, some;
int (*volatile function)(int);
volatile int twelve = 12, one = 1;
"""
# Each traps in the line that is marked.
TRAPS = {
    "a store by NULL": "int main(void) { nowhere->second = 1; /* here */\n return 0; }",
    "a load by NULL that the compiler sees": "int main(void) {\n return *(volatile int *)4; } /* here */",
    "an address outside the data": "int main(void) { *(volatile char *)(0x318001fc * one) = 1; /* here */\n return 0; }",
    "an index": "int main(void) { volatile int *array = &some.first; array[one << 20] = 1; /* here */\n return 0; }",
    "a function by a wrong address": "int main(void) { function = (int (*)(int))0x12345677; function(1); /* here */\n return 0; }",
    "NULL as a function": "int main(void) { function(1); /* here */\n return 0; }",
    "a return address": """__attribute__((noinline)) void nothing(void) { __asm__ volatile(""); }
__attribute__((noinline)) void wrong(void) { nothing(); ((volatile int *)__builtin_frame_address(0))[-1] = 0x1234;
} /* here */
int main(void) { wrong(); return 0; }""",
    "a deep recursion": """int deep(int n) { /* here */
 volatile char room[200]; room[n % 200] = 1; return n ? deep(n - 1) + room[n % 200] : 0; }
int main(void) { return deep(10000); }""",
    "large frames": """int deep(int n) { /* here */
 volatile char room[4000]; room[n] = 1; return n ? deep(n - 1) + room[n] : 0; }
int main(void) { return deep(1000); }""",
    "what alloca has no room for": """#define N (100000 * one)
int main(void) { volatile char *room = __builtin_alloca(N); room[0] = 1; /* here */
 return 0; }""",
    "an array on the stack": """__attribute__((noinline)) int fill(int n) { volatile char room[8];
 for (int k = 0; k < n; k++) room[k] = 1;
 return room[0]; } /* here */
int main(void) { return fill(twelve); }""",
    "memory that is freed": """struct link { struct link *next; };
int main(void) { struct link *volatile first = malloc(sizeof *first); free(first);
 return first->next->next == 0; } /* here */""",
}
# These the zone at zero traps, not an `ebreak`.
BY_THE_ZONE, IN_ZONE = ("a store by NULL",), "trap=Store at=00000004"
# Each traps with what malloc says, in or called from the line that is marked.
MISUSES = {
    "behind the block": "int main(void) { char *p = malloc(twelve); p[twelve] = 0;\n free(p); /* here */\n return 0; }",
    "before the block": "int main(void) { char *p = malloc(twelve); p[-one] = 0;\n free(p); /* here */\n return 0; }",
    "freed again": "int main(void) { char *volatile p = malloc(3); free(p);\n free(p); /* here */\n return 0; }",
    "there is no block": "int main(void) { char *volatile p = malloc(30); p += 16;\n free(p); /* here */\n return 0; }",
    "after it was freed": """int main(void) { char *volatile p = malloc(40); free(p); p[3] = 1;
 for (int k = 0; k < 100; k++)
  p = malloc(1000), free(p); /* here */
 return 0; }""",
    "behind the block at": "int main(void) { char *p = calloc(3, 5); p[15] = 1;\n p = realloc(p, 30); /* here */\n return p == 0; }",
}
# It takes and gives back memory of many sizes, and checks what it holds.
HONEST = """
static unsigned char *taken[40];
static unsigned sizes[40];
static unsigned drawn(void) { static unsigned now = 1; return (now = now * 1103515245 + 12345) >> 16; }
int main(void) {
    unsigned sum = 0;
    for (int turn = 0; turn < 3000; turn++) {
        unsigned k = drawn() % 40, size = drawn() % 400;
        for (unsigned i = 0; i < sizes[k]; i++)
            if (taken[k][i] != (unsigned char)(k + i)) abort();
        switch (drawn() % 4) {
        case 0: free(taken[k]); taken[k] = malloc(size); break;
        case 1:
            free(taken[k]); taken[k] = calloc(size, 1);
            for (unsigned i = 0; i < size; i++)
                if (taken[k][i]) abort();
            break;
        case 2:
            taken[k] = realloc(taken[k], size);
            for (unsigned i = 0; i < size && i < sizes[k]; i++)
                if (taken[k][i] != (unsigned char)(k + i)) abort();
            break;
        default: free(taken[k]); taken[k] = NULL; size = 0;
        }
        if (taken[k] == NULL) size = 0;
        sizes[k] = size;
        for (unsigned i = 0; i < size; i++) taken[k][i] = k + i;
        sum += size > 0;
    }
    while (malloc(5000)) sum++;
    for (int k = 0; k < 40; k++) free(taken[k]);
    return sum > 1000 ? 42 : 1;
}
"""


def marked_line(text):
    return 1 + next(number for number, line in enumerate(text.splitlines()) if "/* here */" in line)


@needs_program
@needs_a_compiler
class Debug(Folder):
    def built(self, text, *options, compiler=COMPILERS[0] if COMPILERS else ""):
        source, program = self.write("program.c", text), self.path("program.elf")
        subprocess.run([SFI_CC, "--program", SFI, "--cc", compiler, "-w", *options, "-o", program, source], check=True)
        return program

    def ran(self, program, *words):
        return subprocess.run([SFI_EXEC, "--program", SFI, *words, program], capture_output=True, text=True, check=False)

    def stops_here(self, text, done):
        """Whether the first line that was told is the one that is marked."""
        told = re.findall(r"program\.c:(\d+)$", done.stderr, re.MULTILINE)
        self.assertEqual(told[:1], [str(marked_line(text))], done.stderr)

    def test_traps(self):
        for what, body in TRAPS.items():
            for compiler in COMPILERS:
                with self.subTest(what, compiler=compiler):
                    text = BEGINNING + body
                    done = self.ran(self.built(text, "--debug", compiler=compiler))
                    self.assertEqual(done.returncode, 126)
                    self.assertRegex(done.stderr, IN_ZONE if what in BY_THE_ZONE else "trap=Break")
                    self.stops_here(text, done)

    def misuses(self, names, *library):
        for what in names:
            with self.subTest(what):
                text = BEGINNING + MISUSES[what]
                done = self.ran(self.built(text, "--debug", *library))
                self.assertIn("\nmalloc: ", done.stdout)
                self.assertIn(what, done.stdout)
                self.stops_here(text, done)

    def test_misuses(self):
        self.misuses(MISUSES)

    @needs(NEWLIB)
    def test_misuses_with_newlib(self):
        self.misuses(list(MISUSES)[2::3], "--library", "newlib")

    def test_end(self):
        """What is written behind a block that nobody frees is told at the program's end."""
        done = self.ran(self.built(BEGINNING + "int main(void) { char *p = malloc(twelve); p[twelve] = 0; return 0; }", "--debug"))
        self.assertIn("behind the block", done.stdout)

    def honest(self, *options):
        with self.subTest(options):
            done = self.ran(self.built(BEGINNING + HONEST, "--debug", *options))
            self.assertEqual((done.returncode, done.stderr), (42, ""))

    def test_honest(self):
        """Programs without mistakes run as they do without checks, also at other places."""
        for options in ((), ("--movable",), ("--at", "02000000:03000000"), ("-O2",), ("--heap", "100000")):
            self.honest(*options)

    @needs(NEWLIB)
    def test_honest_with_newlib(self):
        self.honest("--library", "newlib")

    def test_small_heaps(self):
        """Where there is no room, there is no memory."""
        text = BEGINNING + "int main(void) { int n = 0; while (n < 100 && malloc(1)) n++; free(NULL); return n; }"
        for size, count in ((0, 0), (40, 0), (64, 1), (130, 2)):
            self.assertEqual(self.ran(self.built(text, "--debug", "--heap", str(size))).returncode, count)

    def test_own_functions(self):
        """A program may have a malloc of its own."""
        text = BEGINNING + """static char own[64];
void *malloc(size_t n) { return own; }
void free(void *p) {}
int main(void) { return malloc(5) == own; }"""
        self.assertEqual(self.ran(self.built(text, "--debug")).returncode, 1)

    def test_sanitizer(self):
        options = ("-g", "-fsanitize=undefined", "-fsanitize-undefined-trap-on-error")
        for body in ("int main(void) { int most = 0x7fffffff * one;\n return most + one; } /* here */",
                     "int main(void) { int array[4] = {1};\n return array[twelve]; } /* here */",
                     "int main(void) { int n = 30 * one + 2;\n return 1 << n; } /* here */"):
            for more in (["--format", "2"], ["--debug"]):
                with self.subTest(body, more=more):
                    text = BEGINNING + body
                    done = self.ran(self.built(text, *options, *more))
                    self.assertIn("trap=Break", done.stderr)
                    self.assertIn(f"program.c:{marked_line(text)}\n", done.stderr)

    def test_refused(self):
        for words, told in ((("--format", "1"), "--debug is for words and single"), (("--format", "2"), "--debug is for words and single"),
                            (("--passes", "known"), "--debug has passes of its own")):
            done = subprocess.run([SFI_CC, "--debug", *words, "x.c"], capture_output=True, text=True, check=False)
            self.assertEqual(done.returncode, 2)
            self.assertIn(told, done.stderr)

    def test_exec(self):
        """An access in a guard zone, a second program, a budget, and what is no program."""
        wrong = self.built("int main(void) { volatile int *volatile at = 0;\n return at[-2]; } /* here */", "-g")
        done = self.ran(wrong)
        self.assertRegex(done.stderr, r"(?s)trap=Load at=fffffff8.*: main, program\.c:2\nfffffff8: in the zone at zero: a pointer is null or wrong\n")
        in_words = self.ran(self.built("int main(void) { volatile int *volatile at = 0;\n return at[-2]; }", "-g", "--format", "words"))
        self.assertRegex(in_words.stderr, r"(?s)trap=Load at=017ffff8.*: main, program\.c:2\n017ffff8: in the guard zone, 8 bytes below")
        os.remove(wrong)
        wrong = self.built("int main(void) { volatile int *volatile at = 0;\n return at[-2]; } /* here */", "-g")
        other = self.path("other.elf")
        os.rename(wrong, other)
        fine = self.built("int main(void) { return 7; }", "--sandbox", "1")
        self.assertIn("main, program.c:2", self.ran(fine, other).stderr)
        self.assertEqual(self.ran(fine).returncode, 7)
        self.assertIn("ready", self.ran(fine, "--budget", "2").stderr)
        script = subprocess.run([TOP / "sfi", "exec", other], env={**os.environ, "SFI": SFI}, capture_output=True, text=True, check=False)
        self.assertEqual(script.returncode, 126)
        self.assertIn("main, program.c:2", script.stderr)
        self.assertEqual(self.ran(self.write("no.elf", "no")).returncode, 125)


if __name__ == "__main__":
    unittest.main()
