"""Tests of sfi-trace: `tools/unit_tests.py tools`. They are skipped where the program or the library of the
runtime isn't built. What is wanted is counted by hand, or is what `sfi run` and `sfi dis` print."""
import os
import re
import shutil
import subprocess
import unittest

import libraries
from testing import GCC, SFI, SFI_CC, TOOLS, TOP, Folder, needs

TRACE = TOOLS / "sfi-trace"
READY = os.path.exists(SFI) and os.path.exists(libraries.built("sfi_run")) and shutil.which("gcc")
# Gates' stubs have 16 bytes each, and a call ends its bundle. The start: an addi, and a jal after two c.nop that fill.
LOOP = """.sandbox 256
.gate exit 0
        li   a0, 3
        call count
        call exit
count:  addi a0, a0, -1
        bnez a0, count
        li   a0, 7
        ret
"""
WRONG = """#include "gates.h"

static int square(int x) {
    return x * x;
}

__attribute__((noinline)) int sum(int n) {
    int total = 0;
    for (int i = 0; i < n; i++)
        total += square(i);
    return total;
}

int main(void) {
    put("Hi", 2);
    return sum(1000);
}
"""


@unittest.skipUnless(READY, "the program, the library of the runtime or gcc isn't there")
class Traces(Folder):
    @classmethod
    def setUpClass(cls):
        cls.library = libraries.make("sfi_run")[1]

    def sfi(self, *words, given=""):
        return subprocess.run([SFI, *words], input=given, capture_output=True, text=True, check=True).stdout

    def call(self, *words):
        """The status of a call, its lines, and what it said."""
        env = {**os.environ, "SFI_RUN_LIBRARY": self.library}
        done = subprocess.run([TRACE, "--program", SFI, *words], capture_output=True, text=True, check=False, env=env)
        return done.returncode, done.stdout.splitlines(), done.stderr

    def traced(self, *words):
        status, lines, said = self.call(*words)
        self.assertEqual((status, said), (0, ""))
        return lines


class Instructions(Traces):
    def test_each_is_printed_as_listed(self):
        text = self.write("loop.s", LOOP)
        image = self.sfi("build", given=LOOP)
        listed = set(self.sfi("dis", given=image).splitlines())
        lines = self.traced(text)
        steps = [re.sub(r"  +x\d+=.*", "", it) for it in lines if re.match("[0-9a-f]{8} ", it)]
        self.assertEqual([it for it in steps if it not in listed], [])
        self.assertEqual(lines[-1], self.sfi("run", given=image).rstrip())
        # the steps but for that of the call, which has its own line
        self.assertIn(f"steps={len(steps) + 1} ", lines[-1])
        self.assertEqual(lines[-2], "exit(0x7, 0x0) exits with 7")

    def test_what_is_written_and_the_names(self):
        lines = self.traced(self.write("loop.s", LOOP))
        written = [it.split("x10=")[1] for it in lines if "x10=" in it]
        self.assertEqual(written, ["00000003", "00000002", "00000001", "00000000", "00000007"])
        self.assertEqual(lines.count("count:"), 3)

    def test_a_trap(self):
        lines = self.traced(TOP / "examples" / "smallest.hex")
        self.assertEqual(lines, ["01000000 00100073 ebreak  trap=Break at=01000000",
                                 "sandbox=0 trap=Break at=01000000 steps=0 out="])

    def test_an_image_by_its_bytes_or_digits_whatever_its_name(self):
        text = self.sfi("build", given=LOOP)
        wanted = self.traced(self.write("loop.hex", text))
        (self.room / "loop.image").write_bytes(bytes.fromhex(text))
        for path in (self.room / "loop.image", self.write("loop", text)):
            self.assertEqual(self.traced(path), wanted)

    def test_the_most_steps(self):
        for steps in ("1", "2", "5"):
            self.assertIn(f" ready steps={steps} ", self.traced("--steps", steps, self.write("loop.s", LOOP))[-1])


class Calls(Traces):
    def test_each_with_its_reply(self):
        lines = self.traced("--calls", TOP / "examples" / "hi.s")
        self.assertEqual(lines, ["put(0x1800000, 0x2) = 0x2, 0x2", "exit(0x69, 0x2) exits with 105",
                                 "sandbox=0 exit=105 steps=19 out=4869"])

    def test_two_sandboxes(self):
        lines = self.traced("--calls", "--quantum", "1000", TOP / "examples" / "primes.s")
        image = self.sfi("build", given=(TOP / "examples" / "primes.s").read_text(encoding="utf-8"))
        self.assertEqual(lines[-2:], self.sfi("run", "--rounds", "10", given=image).splitlines())
        self.assertEqual(lines[0], "0: post(0x1, 0x2) = 0x0, 0x2")
        takes = [it for it in lines if it.startswith("1: take") and not it.endswith(" = 0x0, 0x0")]
        self.assertEqual(len(takes), 26)  # the primes below 100, and the end

    def test_the_input(self):
        lines = self.traced("--calls", "--input", "6162", TOP / "examples" / "echo.s")
        self.assertEqual(lines[-1].rpartition(" ")[2], "out=4142")


class Breaks(Traces):
    def test_a_name_and_an_address(self):
        text = self.write("loop.s", LOOP)
        at = re.search(r" count at=(\w+)", self.sfi("map", given=LOOP))[1]
        for place in ("count", at, f"0x{at}"):
            lines = self.traced("--break", place, text)
            arrivals = [it for it in lines if f"pc={at}" in it]
            self.assertEqual(len(arrivals), 3)
            self.assertTrue(arrivals[0].endswith("# count"))
            self.assertEqual([re.search(r"x10=\w+", it)[0] for it in lines if "x10=" in it],
                             ["x10=00000003", "x10=00000002", "x10=00000001"])

    def test_a_place_that_is_none(self):
        text = self.write("loop.s", LOOP)
        for place in ("nowhere", "01000001", "02000000", "file.c:3"):
            status, lines, said = self.call("--break", place, text)
            self.assertEqual((status, lines, said),
                             (1, [], f"sfi-trace: {place} is neither a name nor the address of an instruction\n"))


class Profiles(Traces):
    def rows(self, *words):
        """The table's rows by their names, and how many steps the run took."""
        lines = self.traced(*words)
        found = {" ".join(it.split()[2:]): int(it.split()[0]) for it in lines[1:-1]}
        return found, int(re.search(r"steps=(\d+)", lines[-1])[1])

    def test_functions(self):
        rows, steps = self.rows("--profile", "function", self.write("loop.s", LOOP))
        self.assertEqual(sum(rows.values()), steps)
        # count: three times addi and bne, li, and the masked return of three instructions, besides what fills bundles
        image = self.sfi("build", given=LOOP)
        listing = self.sfi("dis", given=image)
        self.assertEqual((rows["exit"], set(rows)), (1, {"start", "count", "exit"}))
        first, branch = (next(k for k, it in enumerate(listing.splitlines()) if word in it) for word in ("x10, -1", "bne x10, x0"))
        after = next(k for k, it in enumerate(listing.splitlines()) if "jalr x0, 0(x31)" in it and k > branch)
        self.assertEqual(rows["count"], 3 * (branch - first + 1) + after - branch)

    def test_instructions(self):
        rows, steps = self.rows("--profile", "instruction", self.write("loop.s", LOOP))
        self.assertEqual(sum(rows.values()), steps)
        self.assertEqual([count for name, count in rows.items() if "addi x10, x10, -1" in name], [3])

    def test_one_step_in_so_many(self):
        exact, steps = self.rows("--profile", "function", TOP / "examples" / "hanoi.s")
        looks, same = self.rows("--profile", "function", "--every", "10", TOP / "examples" / "hanoi.s")
        self.assertEqual((same, sum(looks.values())), (steps, (steps + 9) // 10))
        self.assertEqual(max(looks, key=looks.get), max(exact, key=exact.get))

    def test_a_trap_is_no_step(self):
        rows, steps = self.rows("--profile", "function", TOP / "examples" / "smallest.hex")
        self.assertEqual((rows, steps), ({}, 0))


@needs(GCC)
class OfC(Traces):
    def setUp(self):
        super().setUp()
        self.file = self.write("slow.c", WRONG)

    def test_the_slow_function_and_its_lines(self):
        lines = self.traced("--profile", "function", self.file)
        count, share, name, where = lines[1].split()
        self.assertEqual(name, "sum")
        self.assertGreater(float(share[:-1]), 95)
        path, _, numbers = where.rpartition(":")
        self.assertEqual(os.path.basename(path), "slow.c")
        first, last = map(int, numbers.split("-"))
        self.assertTrue(4 <= first <= last <= 12)
        steps = int(re.search(r"steps=(\d+)", lines[-1])[1])
        self.assertEqual(sum(int(it.split()[0]) for it in lines[1:-1]), steps)

    def test_lines(self):
        lines = self.traced("--profile", "line", self.file)
        self.assertRegex(lines[1], r"slow\.c:(4|9|10)  sum$")  # the loop
        self.assertTrue(any(it.endswith("slow.c:15  main") for it in lines))

    def test_a_linked_program(self):
        linked = self.path("slow.elf")
        subprocess.run([SFI_CC, "--program", SFI, "-g", "-o", linked, self.file], check=True)
        for options in (("--profile", "line"), ("--calls",)):
            self.assertEqual(self.traced(*options, linked), self.traced(*options, self.file))
        shutil.copy(linked, self.path("slow"))
        self.assertEqual(self.traced("--calls", self.path("slow")), self.traced("--calls", linked))

    def test_a_break_at_a_line(self):
        """With -Og, so that no pass moves an instruction of another line to the front."""
        named = self.traced("--break", "main", "-Og", self.file)[0]
        line = re.search(r"main, (\S+:14)$", named)
        self.assertTrue(line, named)
        arrivals = [it for it in self.traced("--break", line[1], "-Og", self.file) if it.startswith("sandbox=0 step=")]
        self.assertEqual(arrivals[0], named)
        status, _, said = self.call("--break", "slow.c:99", self.file)
        self.assertEqual((status, said), (1, "sfi-trace: no instruction is of slow.c:99\n"))

    def test_options_go_to_the_compiler(self):
        lines = self.traced("--calls", "-O0", "--format", "1", self.file)
        self.assertEqual(lines[0].split("(")[0], "put")
        status, lines, said = self.call(self.write("bad.c", "int main(void) { return }\n"))
        self.assertEqual((status, lines), (1, []))
        self.assertIn("bad.c:1", said)


class Faults(Traces):
    def test_what_is_told(self):
        refused = self.write("refused.hex", "00")
        for words, told in (([self.room / "none.hex"], "can't be read: No such file or directory"), ([refused], "layout fault"),
                            ([self.write("bad.s", "x\n")], "source fault"), ([self.write("digits.hex", "0g")], "isn't hexadecimal"),
                            ([self.write("a.image", "")], "is neither an image"), ([self.write("a.elf", "")], "a.elf"),
                            ([self.room / "none.elf"], "can't be read: No such file or directory")):
            status, lines, said = self.call(*words)
            self.assertEqual((status, lines), (1, []))
            self.assertIn(told, said)

    def test_words(self):
        for words in ([], ["--profile", "other", "a.hex"], ["--steps", "0", "a.hex"], ["--calls", "--break", "a", "a.hex"], ["--every", "7", "a.hex"], ["--input", "1", "a.hex"]):
            status, lines, said = self.call(*words)
            self.assertEqual((status, lines), (2, []))
            self.assertIn("usage: sfi-trace", said)

    def test_an_image_that_breaks_a_rule(self):
        image = (TOP / "examples" / "smallest.hex").read_text(encoding="ascii").replace("73001000", "130c1c00", 1)
        status, lines, said = self.call(self.write("broken.hex", image))
        self.assertEqual((status, lines, said), (1, [],
                         "sfi-trace: rules are broken in the image: findings=1 first=V4 sandbox=0 at=01000000\n"))
