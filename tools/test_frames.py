"""Tests of backtraces: `tools/unit_tests.py tools`. What is wanted stands in the programs of C, or is what gdb tells of them. They are
skipped where the program or the library of the runtime isn't built."""
import os
import re
import shutil
import struct
import subprocess
import sys
import unittest

import libraries
from testing import GCC, SFI, SFI_CC, SFI_IMAGE, TOOLS, TOP, Folder, formats_due, needs

sys.path.insert(0, str(TOP / "bindings" / "python"))
import sfi_run
from sfi_run import frames, names
from sfi_run.console import Console

READY = os.path.exists(SFI) and os.path.exists(libraries.built("sfi_run")) and shutil.which("gcc")
# Each line has the name of its function: deep calls itself twice, from the end of a chain by a pointer and a callback.
CALLS = """#include <stdlib.h>
static volatile int kept;
__attribute__((noinline)) int deep(int *numbers, int count) {
    int own[3] = {count, numbers[0], 5};
    if (count)
        return deep(own, count - 1) + own[1]; /* deep, again */
    kept = own[1] + own[0];
    __builtin_trap(); /* deep, the last */
    return kept;
}
__attribute__((noinline)) int large(int count) {
    int numbers[300];
    for (int k = 0; k < 300; k++)
        numbers[k] = k * count;
    return deep(numbers, 2) + numbers[count]; /* large */
}
int (*volatile chosen)(int) = large;
__attribute__((noinline)) int many(int a, int b, int c, int d, int e, int f, int g, int h) {
    int first = chosen(a + b) /* many */;
    return first * a + b * c + d * e + f * g + h;
}
int compare(const void *one, const void *other) {
    return many(*(const int *)one, *(const int *)other, 3, 4, 5, 6, 7, 8) - kept; /* compare */
}
int main(void) {
    int numbers[2] = {2, 1};
    qsort(numbers, 2, sizeof *numbers, compare); /* main */
    return numbers[0];
}
"""
LEAF = """__attribute__((noinline)) int leaf(volatile int *p) { return p[-2] + 1; }
int called(void) { int n = leaf(0); return n + 2; }
"""


@unittest.skipUnless(READY, "the program, the library of the runtime or gcc isn't there")
@needs(GCC)
class Backtraces(Folder):
    @classmethod
    def setUpClass(cls):
        cls.library = sfi_run.Library(libraries.make("sfi_run")[1])

    def linked(self, text, *words):
        source, elf = self.path("calls.c"), self.path("calls.elf")
        with open(source, "w", encoding="utf-8") as file:
            file.write(text)
        subprocess.run([SFI_CC, "--program", SFI, "-g", *words, source, "-o", elf], check=True)
        return elf

    def image(self, elf):
        return subprocess.run([SFI_IMAGE, "--raw", elf], capture_output=True, check=True).stdout

    def told(self, elf):
        with sfi_run.World(self.image(elf), self.library) as world:
            Console(world).turn(world[0], 1_000_000)
            self.assertIsInstance(world[0].event, sfi_run.Trapped)
            return frames.Program(elf).backtrace(world[0])

    def line_of(self, text, note):
        return f"calls.c:{text[: text.index(f'/* {note} */')].count(chr(10)) + 1}"

    def by_gdb(self, elf):
        """The functions, and where each goes on."""
        done = subprocess.run([TOOLS / "sfi-gdb", elf, "-nx", "-batch", "-ex", "continue", "-ex", "backtrace"], capture_output=True,
                              text=True, check=False, env={**os.environ, "SFI_RUN_LIBRARY": libraries.make("sfi_run")[1]})
        return re.findall(r"^#\d+ +(?:0x[0-9a-f]+ in )?(\w+) ", done.stdout, re.MULTILINE)

    def test_calls(self):
        for number, format_ in enumerate(formats_due(0, 1)):
            for level in ("-O0", "-O1", "-O2", "-Os"):
                with self.subTest(format=format_, level=level):
                    found = self.told(self.linked(CALLS, "--format", format_, level))
                    own = [(it.function, it.line) for it in found if it.line.startswith("calls.c")]
                    wanted = [("deep", "deep, the last"), ("deep", "deep, again"), ("deep", "deep, again"), ("large", "large"), ("many", "many"),
                              ("compare", "compare"), ("main", "main")]
                    self.assertEqual(own, [(name, self.line_of(CALLS, note)) for name, note in wanted])

    @needs("gdb-multiarch")
    def test_as_gdb_tells(self):
        for format_ in ("1", "words", "single"):
            elf = self.linked(CALLS, "--format", format_, "-O1")
            found = [it.function for it in self.told(elf)]
            by_gdb = self.by_gdb(elf)
            self.assertGreater(len(by_gdb), 7)
            self.assertEqual(found[: len(by_gdb)], by_gdb)

    def test_a_plug_in(self):
        elf = self.linked(LEAF, "-O1", "--export", "called")
        with names.Plugin(self.image(elf), library=self.library) as plugin:
            with self.assertRaises(sfi_run.NotReturned):
                plugin.called()
            program = frames.Program(elf)
            found = program.backtrace(plugin.sandbox)
            self.assertEqual([(it.function, it.line) for it in found], [("leaf", "calls.c:1"), ("called", "calls.c:2")])
            self.assertRegex(str(found[1]), r"^[0-9a-f]{8} called\+0x[0-9a-f]+, calls\.c:2$")
            plugin.sandbox.registers = sfi_run.Registers(plugin.address("called"), plugin.sandbox.registers.x)
            self.assertEqual([it.function for it in program.backtrace(plugin.sandbox)][0], "called")

    def test_exec(self):
        """Of a leaf the registers tell the caller, which sfi-exec names."""
        elf = self.linked(LEAF + "int main(void) { return called(); }\n", "-O1", "-fno-optimize-sibling-calls")
        done = subprocess.run([TOOLS / "sfi-exec", "--program", SFI, elf], capture_output=True, text=True, check=False)
        places = re.findall(r"^[0-9a-f]{8}: (.*)", done.stderr, re.MULTILINE)
        self.assertEqual((places[0], places[2]), ("leaf, calls.c:1", "called, calls.c:2"))

    def test_what_is_broken(self):
        """Whatever the registers hold, a backtrace ends."""
        elf = self.linked(LEAF, "-O1", "--export", "called")
        program = frames.Program(elf)
        at = names.export(self.image(elf), "called", library=self.library)
        for word in (0, 1, at, at + 2, 0xFFFFFFFF, 0x80000000):
            self.assertLessEqual(len(list(program.callers(at + 8, [word] * 32, lambda _: word))), frames.MOST)
        self.assertEqual(list(program.callers(at + 8, [0] * 32, lambda _: None)), [])
        with open(elf, "rb") as file:
            content = file.read()
        for length in (0, 10, 60, len(content) // 2):
            with self.assertRaises(ValueError):
                frames.Program(self.write("cut.elf", content[:length]))

    def write(self, name, content):
        path = self.path(name)
        with open(path, "wb") as file:
            file.write(content)
        return path


CIE = b"\xff\xff\xff\xff\x03\0\x01\x7c\x01"  # version 3, the factors 1 and -4, and ra
FUNCTION = (0x1000).to_bytes(4, "little") + (0x100).to_bytes(4, "little")


def entry(content, length=None):
    return (len(content) if length is None else length).to_bytes(4, "little") + content


def with_frames(content, size=None):
    """A linked file whose .debug_frame is that, or says that it has another size."""
    names_at, table = 52 + len(content), b"\0.debug_frame\0.shstrtab\0"
    headers = [(0,) * 10, (1, 1, 0, 0, 52, len(content) if size is None else size, 0, 0, 1, 0), (14, 3, 0, 0, names_at, len(table), 0, 0, 1, 0)]
    head = b"\x7fELF\x01\x01".ljust(32, b"\0") + struct.pack("<I", names_at + len(table)) + bytes(10) + struct.pack("<3H", 40, 3, 2)
    return head + content + table + b"".join(struct.pack("<10I", *it) for it in headers)


class WrongFrames(Folder):
    """Call frame information of which a caller is found, or that holds what no compiler writes: then there is none, soon."""

    def callers(self, content, size=None):
        path = self.path("program.elf")
        with open(path, "wb") as file:
            file.write(with_frames(content, size))
        return list(frames.Program(path).callers(0x1010, range(32), lambda at: 0x2000))

    def test_a_caller(self):
        self.assertEqual(self.callers(entry(CIE + b"\x0c\x02\0") + entry(bytes(4) + FUNCTION + b"\x81\x01")), [0x2000])

    def test_what_no_compiler_writes(self):
        for name, own in (("a register", b"\x0c\x7f\0"), ("a long number", b"\x0e" + b"\x80" * 1_000_000), ("rules", b"\x0a" * 1_000_000),
                          ("a register that is kept", b"\x05\xff\x7f\x01")):
            with self.subTest(name):
                self.assertEqual(self.callers(entry(CIE) + entry(bytes(4) + FUNCTION + own)), [])

    def test_lengths_beyond_the_file(self):
        for name, content, size in (("the section", bytes(8), 0xFFFFFFFF), ("an entry", entry(CIE) + entry(bytes(4) + FUNCTION, 0xFFFFFFFF), None),
                                    ("a CIE", entry(CIE, 0xFFFFFFFF) + entry(bytes(4) + FUNCTION), None),
                                    ("where a CIE is", entry(b"\xf0\xff\xff\xff" + FUNCTION), None)):
            with self.subTest(name):
                self.assertIn(self.callers(content, size), ([], [1]))  # ra has 1


if __name__ == "__main__":
    unittest.main()
