"""Tests of the memory that objects, heap and stack of a program share: `tools/unit_tests.py tools test_memory.py`. They are skipped
where a compiler or the program isn't there."""
import os
import re
import struct
import subprocess
import unittest
from itertools import combinations, product

from suygapid.elf.linking import place_of
from suygapid.image.layout import GUARD, MOST_SANDBOXES
from testing import COMPILERS, GCC, NEWLIB, SFI, SFI_CC, SFI_IMAGE, TOOLS, Folder, formats_due, lacking, needs, needs_program

STACK = 8192  # bytes of its room, unless an option says others
TAKES = "#include <stdlib.h>\nint main(void) { return malloc(20) == NULL; }\n"
# Takes links of 1000 bytes until there is no memory, gives them back, and answers how many; or the line where something is wrong.
ALL = r"""#include <stdlib.h>
#include <string.h>
struct link { struct link *before; unsigned char bytes[996]; };
int main(void) {
    struct link *last = NULL, *next;
    unsigned char count = 0;
    int all = 0;
    for (; (next = malloc(sizeof *next)); last = next, all++) {
        memset(next, count++, sizeof *next);
        next->before = last;
    }
    for (; last; last = next) {
        for (int at = (count--, 0); at < 996; at++)
            if (last->bytes[at] != count) exit(__LINE__);
        next = last->before;
        free(last);
    }
    return AGAIN && !malloc(500 * all) ? __LINE__ : 1000 + all;
}
"""
# Takes 12 MiB, then 16, which 16 MiB of data haven't, and goes on; the sums are of what it wrote into each block before.
MUCH = r"""#include <stdio.h>
#include <stdlib.h>
#define COUNT 65
int main(void) {
    unsigned char *blocks[COUNT];
    for (int k = 0; k < COUNT; k++) {
        int size = k ? 1 << 16 : 1 << 23;
        if (!(blocks[k] = malloc(size))) return 1;
        for (int at = 0; at < size; at += 61) blocks[k][at] = at * 7 + k;
    }
    if (sizeof(void *) == 4 && malloc(1 << 24)) return 2;
    for (int k = 0; k < COUNT; k++) {
        unsigned sum = 0;
        for (int at = 0; at < (k ? 1 << 16 : 1 << 23); at += 61) sum = sum * 31 + blocks[k][at];
        printf("%u\n", sum);
    }
    return blocks[COUNT - 1] ? 42 : 3;
}
"""
# Memory that is taken below a stack of some 40000 bytes, which is more than its room, and after that.
DEEP = r"""#include <stdlib.h>
#include <string.h>
static void *volatile taken;
static int deep(int depth);
static int (*volatile next)(int) = deep;
static int deep(int depth) {
    volatile unsigned char own[1000];
    memset((void *)own, depth, sizeof own);
    if (depth == 0)
        taken = malloc(50000);
    int sum = depth ? next(depth - 1) : 0;
    for (int at = 0; at < 1000; at++)
        sum += own[at] == depth;
    return sum;
}
int main(void) {
    unsigned char *big = malloc(60000);
    memset(big, 170, 60000);
    if (deep(39) != 40000 || taken) return 1;
    for (int at = 0; at < 60000; at++)
        if (big[at] != 170) return 2;
    unsigned char *other = calloc(50, 1000);
    if (!other) return 3;
    for (int at = 0; at < 50000; at++)
        if (other[at]) return 4;
    return 42;
}
"""


class Programs(Folder):
    def call(self, text, *words):
        """The status of sfi-cc, and what it says."""
        source = self.write("memory.c", text)
        done = subprocess.run([SFI_CC, "--program", SFI, "-w", "-o", self.path("memory.elf"), *words, source], capture_output=True, text=True, check=False)
        return done.returncode, done.stderr

    def built(self, text, *words):
        status, told = self.call(text, *words)
        self.assertEqual(status, 0, told)
        return self.path("memory.elf")

    def ran(self, text, *words):
        """The exit code of a program, which `sfi exec` cuts off and `sfi run` doesn't."""
        program = subprocess.run([SFI_IMAGE, self.built(text, *words)], stdout=subprocess.PIPE, check=True).stdout
        done = subprocess.run([SFI, "run", "--rounds", "1000", "--quantum", "1000000"], input=program, stdout=subprocess.PIPE, check=True)
        return int(re.search(rb"exit=(\d+)", done.stdout)[1])


class Places(unittest.TestCase):
    SIZES = [(256, 256), (1 << 22, 1 << 22), (1 << 22, 1 << 23), (1 << 23, 256), (1 << 24, 1 << 26), (256, 1 << 26)]  # of code and data

    def spans(self, sandbox, code, data):
        code_base, data_base = place_of(sandbox, code, data, "words")
        self.assertEqual((code_base % code, data_base % data), (0, 0))
        self.assertLessEqual(data_base + data + GUARD, 1 << 32)
        return [range(code_base, code_base + code), range(data_base - GUARD, data_base + data + GUARD)]

    def test_all_lie_apart(self):
        """Sixteen sandboxes of whatever size, up to 16 MiB of code and 64 MiB of data."""
        for one, other in combinations(range(MOST_SANDBOXES), 2):
            for first, second in product(self.SIZES, repeat=2):
                for here, there in product(self.spans(one, *first), self.spans(other, *second)):
                    self.assertTrue(here.stop <= there.start or there.stop <= here.start, (one, first, other, second))

    def test_the_largest(self):
        for size, sandboxes in ((1 << 27, 14), (1 << 28, 7), (1 << 29, 3), (1 << 30, 1)):
            for sandbox in range(sandboxes):
                here, there = self.spans(sandbox, 1 << 24, size)
                self.assertLessEqual(here.stop, there.start)


@needs(GCC)
class Sizes(Programs):
    """What is told of them, and what an image says, without the program."""

    def numbers(self, program, *words):
        """The bases of code and data, and the data's size, of the image of a program."""
        image = subprocess.run([SFI_IMAGE, "--raw", *words, program], stdout=subprocess.PIPE, check=True).stdout
        code, _, data, size = struct.unpack_from("<4I", image, 8)
        return [code, data, size]

    def place(self, text, *words):
        return self.numbers(self.built(text, *words))

    def size(self, *words, of_image=()):
        return self.numbers(self.built(TAKES, *words), *of_image)[2]

    def test_sizes(self):
        """The linked file keeps what sfi-cc was told."""
        for words, of_image, size in (((), (), 1 << 24), (("--stack", "64K"), (), 1 << 24), (("--heap", "100000"), (), 131072), (("--heap", "20M"), (), 1 << 25),
                                      (("--memory", "256K"), (), 262144), (("--data", "32768"), (), 32768), (("--memory", "1M"), ("--memory", "64K"), 65536),
                                      (("--memory", "16K", "--heap", "3K", "--stack", "3K"), (), 16384), ((), ("--stack", "128K"), 1 << 24),
                                      (("--heap", "3K"), ("--stack", "128K"), 262144), ((), ("--memory", "64K"), 65536)):
            with self.subTest(words):
                self.assertEqual(self.size("--program", self.write("accepts", "#!/bin/sh\ncat >/dev/null\n", 0o755), *words, of_image=of_image), size)

    def test_sizes_unless_told(self):
        """What has no heap, bundles and what has a place of its own are small; of single masks what there is room for below the data."""
        for words, size in ((("--format", "1"), 65536), (("--format", "2"), 65536), (("--format", "2", "--library", "newlib"), 131072),
                            (("--at", "02000000:03000000"), 65536), (("--at", "02000000:02100000", "--stack", "64K"), 131072), (("--movable",), 1 << 24),
                            (("--format", "words", "--sandbox", "15"), 1 << 24), (("--format", "words"), 1 << 24), (("--sandbox", "6"), 1 << 24),
                            (("--sandbox", "7"), 1 << 23), (("--sandbox", "10"), 1 << 20),
                            (("--sandbox", "7", "--memory", "1M"), 1 << 20)):
            if "newlib" not in words or not lacking(NEWLIB):
                with self.subTest(words):
                    self.assertEqual(self.size(*words), size)
        none = "int main(void) { return 0; }\n"
        large = "#include <stdlib.h>\nchar large[17 << 20];\nint main(void) { return large[(int)malloc(9) & 255]; }\n"
        prints = "#include <stdio.h>\nint main(void) { return puts(\"\"); }\n"
        for text, words, size in ((none, (), 16384), (none, ("--stack", "100"), 256), (none, ("--stack", "20M"), 1 << 25), (large, (), 1 << 25),
                                  (prints, (), 16384), (prints, ("--debug",), 65536), (TAKES, ("--debug",), 1 << 24)):
            with self.subTest(text, words=words):
                self.assertEqual(self.place(text, *words)[2], size)

    def test_places(self):
        """Where the data lie: behind the code, or, of more than 4 MiB or beside that much code, above the code of all sandboxes."""
        sizes = {"64K": 1 << 16, "4M": 1 << 22, "8M": 1 << 23, "64M": 1 << 26, "512M": 1 << 29, "1G": 1 << 30}
        for size, sandbox, base in (("64K", 0, 0x01800000), ("4M", 0, 0x01800000), ("4M", 15, 0x10800000), ("8M", 0, 0x20000000), ("8M", 15, 0x98000000),
                                    ("64M", 1, 0x28000000), ("512M", 2, 0xA0000000), ("1G", 0, 0x40000000)):
            with self.subTest(size=size, sandbox=sandbox):
                self.assertEqual(self.place(TAKES, "--format", "words", "--memory", size, "--sandbox", str(sandbox)), [(sandbox + 1) << 24, base, sizes[size]])
        large = "char large[20000000];\nint main(void) { return large[(int)large & 255]; }\n"
        self.assertEqual(self.place(large, "--format", "words"), [0x01000000, 0x20000000, 1 << 25])
        for size, sandbox, code in (("64K", 0, 0x01800000), ("4M", 3, 0x04800000), ("8M", 0, 0xC1000000), ("16M", 6, 0xC7000000), ("1M", 10, 0x0B800000)):
            with self.subTest(size=size, sandbox=sandbox):
                self.assertEqual(self.place(TAKES, "--memory", size, "--sandbox", str(sandbox))[:2], [code, 1 << 31 - sandbox])
        self.assertEqual(self.place(large), [0xC1000000, 0x80000000, 1 << 25])
        self.assertEqual(self.place(large, "--at", "03000000:0a000000"), [0x03000000, 0x0A000000, 1 << 25])
        self.assertEqual(self.call(large, "--at", "03000000:0b000000"),
                         (1, "sfi-cc: memory.elf: the data have 33554432 bytes, and lie at 0xb000000, which is no multiple of that: "
                             "link it with --memory 32M, or another --at\n"))

    def test_what_has_no_room(self):
        """The objects and the stack come first, so that the rest of what is missing is the heap's."""
        told = r"sfi-cc: memory.elf: (\d+) bytes of objects, 8192 of stack and (\d+) of heap don't fit in (\d+), by(?: (\d+) of stack and)? (\d+) of heap: (.*)\n"
        for words, more in ((("--heap", "60000", "--memory", "64K"), "--memory 128K gives more"), (("--heap", "1G"), "format single has room for no more"),
                            (("--heap", "1M", "--format", "2"), "format 2 has room for no more"),
                            (("--heap", "60000", "--memory", "4K"), "--memory 128K gives more")):
            status, said = self.call(TAKES, *words)
            objects, heap, size, stack, missing, advice = re.fullmatch(told, said).groups()
            self.assertEqual((status, advice), (1, more))
            above = int(stack or 0) + int(missing) + int(size) - int(objects) - STACK - int(heap)
            self.assertIn(above, range(16, 16 + 2304 + 1))  # what lies above the stack
            self.assertEqual(missing == heap, stack is not None)
        status, said = self.call(TAKES, "--memory", "8K")
        self.assertRegex(said, r"^sfi-cc: memory.elf: \d+ bytes of objects and 8192 of stack don't fit in 8192, by \d+ of stack: --memory 16K gives more\n$")

    def test_what_is_no_size(self):
        for option, text, told in (("--memory", "300", "--memory/--data: '300' is no power of two from 256 to 1073741824"),
                                   ("--data", "2G", "--memory/--data: '2G' is no power of two from 256 to 1073741824"),
                                   ("--memory", "64k", "--memory/--data: '64k' is no power of two from 256 to 1073741824"),
                                   ("--heap", "1025M", "--heap: '1025M' is no number from 0 to 1073741824"),
                                   ("--stack", "K", "--stack: 'K' is no number from 0 to 1073741824")):
            status, said = self.call(TAKES, option, text)
            self.assertEqual((status, said.splitlines()[-1]), (2, f"sfi-cc: error: argument {told}"))

    def test_what_a_format_has_no_room_for(self):
        for words, told in ((("--format", "2", "--memory", "2M"), "--memory 2M is more than format 2 has room for (at most 1M)"),
                            (("--format", "1", "--memory", "1G"), "--memory 1G is more than format 1 has room for (at most 1M)")):
            self.assertEqual(self.call(TAKES, *words), (1, f"sfi-cc: memory.elf: {told}\n"))

    def test_where(self):
        """What lies between the objects and the region's end is the heap's and the stack's, and an overflow is told with both."""
        said = subprocess.run([SFI_CC, "--memory", "128K", "--where", "8001f000", "--where", "7ffffff0", self.write("memory.c", TAKES)],
                              capture_output=True, text=True, check=True).stdout
        self.assertRegex(said, r"^8001f000: in the memory of heap and stack, \d+ bytes behind the objects\n"
                               r"7ffffff0: in the guard zone, 16 bytes below the data: the stack has likely overflowed its room of 8704 bytes beside "
                               r"the heap \(--stack gives more\), or a pointer is wrong\n$")


@needs_program
@needs(GCC)
class Shared(Programs):
    """What malloc gives, by programs that run."""

    def gives(self, least, most, *words, again=0):
        """All between the objects and the stack's room, whose links have 1000 to 1064 bytes."""
        with self.subTest(words):
            self.assertIn(self.ran(ALL, f"-DAGAIN={again}", *words) - 1000, range(least, most + 1))

    def test_all_by_the_small_library(self):
        for image_format in formats_due(0, 2):
            for compiler in COMPILERS:
                self.gives(116, 122, "--memory", "128K", "--cc", compiler, "--format", image_format)
        self.gives(53, 57, "--memory", "64K", "--movable")
        self.gives(19, 20, "--memory", "128K", "--heap", "20K")
        self.gives(58, 61, "--memory", "128K", "--stack", "68000")
        self.gives(110, 122, "--memory", "128K", "--debug")
        self.gives(19, 20, "--heap", "21000", "--debug")

    def much(self, *words):
        """What MUCH does by default: as natively, and malloc hasn't 16 MiB."""
        run = {"capture_output": True, "check": False}
        subprocess.run(["gcc", "-o", self.path("natively"), self.write("memory.c", MUCH)], check=True)
        native = subprocess.run([self.path("natively")], **run)
        done = subprocess.run([os.path.join(TOOLS, "sfi-exec"), "--program", SFI, self.built(MUCH, *words)], **run)
        self.assertEqual((done.returncode, done.stdout, done.stderr), (42, native.stdout, b""))
        self.assertEqual(native.returncode, 42)

    @needs("gcc")
    def test_much(self):
        for words in ((), ("--movable",), ("--debug",), ("--sandbox", "3"), ("--format", "words")):
            with self.subTest(words):
                self.much(*words)

    @needs("gcc", NEWLIB)
    def test_much_by_newlib(self):
        for words in ((), ("--debug",)):
            with self.subTest(words):
                self.much("--library", "newlib", *words)

    def test_several_sandboxes(self):
        """Two programs, each with as much."""
        for image_format in ("words", "single"):
            programs = []
            for sandbox in range(2):
                programs.append(f"{self.built(MUCH, '--format', image_format, '--sandbox', str(sandbox))}.{sandbox}")
                os.rename(self.path("memory.elf"), programs[-1])
            image = subprocess.run([SFI_IMAGE, *programs], stdout=subprocess.PIPE, check=True).stdout
            done = subprocess.run([SFI, "run", "--rounds", "1000", "--quantum", "1000000"], input=image, stdout=subprocess.PIPE, check=True)
            self.assertEqual(re.findall(rb"sandbox=(\d) exit=(\d+)", done.stdout), [(b"0", b"42"), (b"1", b"42")])

    @needs(NEWLIB)
    def test_all_by_newlib(self):
        self.gives(110, 122, "--memory", "128K", "--library", "newlib", again=1)
        self.gives(1000, 1032, "--memory", "1M", "--library", "newlib", again=1)
        self.gives(19, 20, "--heap", "20K", "--library", "newlib", again=1)
        self.gives(105, 122, "--memory", "128K", "--library", "newlib", "--debug", again=1)

    def test_a_deep_stack(self):
        for words in ((), ("--movable", "--at", "02000000:03000000"), ("--debug",)):
            with self.subTest(words):
                self.assertEqual(self.ran(DEEP, "--memory", "128K", *words), 42)

    @needs(NEWLIB)
    def test_a_deep_stack_with_newlib(self):
        for words in ((), ("--debug",)):
            self.assertEqual(self.ran(DEEP, "--memory", "128K", "--library", "newlib", *words), 42)

    def test_debug_stops_at_the_heap(self):
        """A stack that would do without what malloc has given, with few bytes and with those that it has unless told."""
        text = ("#include <stdlib.h>\nint deep(int n) {\n volatile char room[EACH]; room[n % EACH] = 1; return n ? deep(n - 1) + room[n % EACH] : 0; }\n"
                "int main(void) { return TAKEN && !malloc(TAKEN) ? 3 : deep(300) > 0 ? 42 : 1; }\n")
        few = ("-DEACH=200", "--memory", "128K")
        for taken, words, status, told in ((100, few, 42, ""), (90000, few, 126, "memory.c:2"), (9 << 20, ("-DEACH=20000",), 42, ""),
                                           (12 << 20, ("-DEACH=20000",), 126, "memory.c:2")):
            program = self.built(text, f"-DTAKEN={taken}", "--debug", *words)
            done = subprocess.run([os.path.join(TOOLS, "sfi-exec"), "--program", SFI, program], capture_output=True, text=True, check=False)
            self.assertEqual(done.returncode, status, done.stderr)
            self.assertIn(told, done.stderr)
