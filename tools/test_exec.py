"""Tests of `sfi exec` and sfi-exec by native code, beside the same runs step by step: `tools/unit_tests.py tools test_exec.py`. Those
are skipped where this isn't Linux on x86-64, or a compiler or the program isn't there."""
import glob
import os
import re
import subprocess
import unittest

from suygapid import native
from testing import SFI, SFI_CC, TOOLS, TOP, Folder, needs_a_compiler, needs_program

SFI_EXEC = str(TOOLS / "sfi-exec")
# What a program does by its first byte of input. Each way is one of `sfi exec` to end, or a service.
SOURCE = r"""
#include "gates.h"
#include <stdio.h>
#include <stdlib.h>
int main(void) {
    unsigned word = 0;
    static char block[70000];
    switch (getchar()) {
    case 'r': exit(300);
    case 't': __asm__ volatile("lw a0, 1020(sp)" ::: "a0"); break; /* above the data, where the stack begins */
    case 'b': __builtin_trap();
    case 'l': for (;;) word++;
    case 'm':
        for (int k = 0; k < 20; k++) printf("%d", (int)post_word(0, 10 + k));
        for (int k = 0; k < 20; k++) { struct taken_word it = take_word(); printf(" %u:%u", it.sender, it.word); }
        printf(" %d\n", (int)post_word(1, 5));
        yield_turn();
        break;
    case 'e': for (int byte; (byte = getchar()) != EOF;) putchar(byte ^ 32); break;
    case 'p': printf("%d %d\n", (int)put(block, 70000), (int)put((char *)4, 8)); break;
    default: return 7;
    }
    return 0;
}
"""


# Images by their sources, and what each is given: what is got and put, traps, steps that end, a word for itself, two sandboxes.
IMAGES = {
    "hi": (TOP / "examples" / "hi.s").read_text(encoding="ascii"), "echo": (TOP / "examples" / "echo.s").read_text(encoding="ascii"),
    "trap": ".sandbox 4096\nli a0, 7\nebreak\n", "fault": ".sandbox 4096\nli a0, 4095\nsw a0, -2(a0)\n",
    "endless": ".format words\n.sandbox 4096\nagain: j again\n", "two": ".sandbox 4096\nebreak\n" * 2,
    "post": ".sandbox 4096\n.gate post 4\n.gate take 5\n.gate quit 0\nli a0, 0\nli a1, 9\ncall post\ncall take\ncall quit\n"}
WORDS = ("hi.image", "hi.hex", "echo.image", "trap.image", "fault.hex", "post.image", "two.image", "endless.image --budget 12345", "--budget 19 hi.image",
         "--budget 18 hi.image", "hi.image --budget=5", "--budget 18446744073709551615 hi.image", "--budget 99999999999999999999 hi.image",
         "--budget 0 hi.image", "--budget", "", "none", ".", "short", "refused.hex", "--help", "hi.image more", "-- hi.image", "--interpret hi.image",
         "/dev/stdin")
STREAMS = ("", "<&-", "<.", ">&-", ">/dev/full", "<&- >&-", "2>&-", "2>/dev/full", "<&- >&- 2>&-", "<&- 2>&-", "<hi.image", "<hi.image >&-")


@unittest.skipUnless(native.is_possible(), "this isn't Linux on x86-64")
@needs_program
class Images(Folder):
    """The host in the place of the program."""

    def setUp(self):
        super().setUp()
        for name, text in IMAGES.items():
            source = re.sub(r"\.sandbox \d+", ".sandbox 4096", text).encode()
            digits = subprocess.run([SFI, "build"], input=source, stdout=subprocess.PIPE, check=True).stdout.decode()
            self.write(f"{name}.hex", f" {digits.upper()} \n")
            (self.room / f"{name}.image").write_bytes(bytes.fromhex(digits))
        self.write("refused.hex", self.read("hi.hex").replace("B37FB501", "13000000"))
        self.write("short", "SFI1")

    def ran(self, program, words, streams):
        """The status, what was put and what was said, as the shell starts a program with these streams."""
        return subprocess.run(["sh", "-c", f'"$@" {streams}', "sh", *program, "exec", *words.split()], input=b"Given\n", capture_output=True,
                              cwd=self.folder, check=False)

    def test_all(self):
        by_native_code = native.program_words(SFI)
        self.assertIn("--program", by_native_code)
        for words in WORDS:
            for streams in STREAMS if words in ("hi.image", "echo.image", "trap.image", "/dev/stdin") else STREAMS[:1]:
                with self.subTest(words=words, streams=streams):
                    wanted, found = (self.ran(it, words, streams) for it in ([SFI], by_native_code))
                    self.assertEqual((wanted.returncode, wanted.stdout, wanted.stderr), (found.returncode, found.stdout, found.stderr))

    def test_what_is_native(self):
        """What the program is asked for, and by which name it is found."""
        program = self.write("sfi", f'#!/bin/sh\necho "$@" >> log\nexec {SFI} "$@"\n', 0o755)
        for words, asked in (("hi.image", "native\n"), ("trap.hex", "native\ndis\n"), ("two.image", "exec two.image\n"), ("refused.hex", "native\nexec refused.hex\n"),
                             ("--interpret hi.image", "exec --interpret hi.image\n")):
            self.ran(native.program_words(program), words, "")
            self.assertEqual(self.read("log"), asked)
            os.remove(self.path("log"))
        self.assertEqual(os.path.realpath(native.HOST + "/../../../../../sfi"), str(TOP / "sfi"))


@unittest.skipUnless(native.is_possible(), "this isn't Linux on x86-64")
@needs_program
@needs_a_compiler
class Programs(Folder):
    def setUp(self):
        super().setUp()
        self.log = self.path("log")
        self.program = self.write("sfi", f'#!/bin/sh\necho "$1" >> {self.log}\nexec {SFI} "$@"\n', 0o755)

    def built(self, source, *words):
        program = self.path("program.elf")
        subprocess.run([SFI_CC, "--program", SFI, "-O1", "-w", *words, "-o", program, source], check=True)
        return program

    def ran(self, words, given=b"", stdout=subprocess.PIPE):
        """The status of sfi-exec, what was printed, and the commands of sfi that it took."""
        open(self.log, "w", encoding="utf-8").close()
        done = subprocess.run([SFI_EXEC, "--program", self.program, *words], input=given, stdout=stdout, stderr=subprocess.PIPE, check=False)
        return (done.returncode, done.stdout, done.stderr), self.read("log").split()

    def check_both(self, words, **more):
        """Runs both ways, and returns what they have in common."""
        (natively, commands), (interpreted, others) = self.ran(words, **more), self.ran(["--interpret", *words], **more)
        self.assertEqual(natively, interpreted, words)
        self.assertIn(commands, (["native"], ["native", "dis"]))  # the latter where it tells where it stands
        self.assertEqual(others, ["exec"])
        return natively

    def test_ways_to_end(self):
        program = self.built(self.write("program.c", SOURCE), "-I", str(TOP / "examples" / "c"))
        for way, status in {"r": 300 & 0xFF, "t": 126, "b": 126, "m": 0, "e": 0, "p": 0, "": 7}.items():
            given = (way + "Some Input\n" * 90).encode() if way else b""
            self.assertEqual(self.check_both([program], given=given)[0], status, way)
        steps = int(self.check_both([program], given=b"t")[2].split(b"steps=")[1].split()[0])
        self.assertEqual([self.check_both([program, "--budget", str(steps + it)], given=b"t")[0] for it in (0, 1)], [124, 126])
        self.assertEqual(self.check_both([program, "--budget", "123457"], given=b"l")[0], 124)

    def test_full_output(self):
        program = self.built(str(TOP / "examples" / "c" / "hello.c"))
        with open("/dev/full", "wb") as full:
            self.assertEqual(self.check_both([program], stdout=full)[0], 125)

    def test_start(self):
        """What Python compiles of the modules is kept in the user's folder, where the next start finds it, and not beside them."""
        program = self.built(self.write("small.c", "int main(void) { return 5; }"))
        for _ in range(2):
            done = subprocess.run([SFI_EXEC, "--program", SFI, program], env={**os.environ, "XDG_CACHE_HOME": self.folder}, check=False)
            self.assertEqual(done.returncode, 5)
        self.assertEqual(len(glob.glob(self.path("suygapid/python/**/commands/exec.*.pyc"), recursive=True)), 1)
        self.assertEqual(glob.glob(str(TOOLS / "suygapid" / "**" / "__pycache__"), recursive=True), [])

    def test_what_is_interpreted(self):
        program = self.built(str(TOP / "examples" / "c" / "hello.c"))
        os.rename(program, self.path("first.elf"))
        other = self.built(str(TOP / "examples" / "c" / "hello.c"), "--sandbox", "1")
        self.assertEqual(self.ran([self.path("first.elf"), other]), ((0, b"Hello, world\n" * 2, b""), ["exec"]))
        self.assertEqual(self.ran(["--interpret", other]), ((0, b"Hello, world\n", b""), ["exec"]))
        small = self.built(self.write("small.c", "int main(void) { return 5; }"), "--stack", "256", "--data", "512")
        self.assertEqual(self.ran([small]), ((5, b"", b""), ["exec"]))


class Wrong(Folder):
    def test_an_image(self):
        """It isn't what sfi-exec takes, which says so, and what runs it."""
        text = (TOP / "examples" / "smallest.hex").read_text(encoding="ascii")
        (self.room / "smallest.image").write_bytes(bytes.fromhex(text))
        for file in (TOP / "examples" / "smallest.hex", self.room / "smallest.image", self.write("spaces.hex", f"\n  {text}")):
            done = subprocess.run([SFI_EXEC, file], capture_output=True, text=True, check=False)
            said = f"sfi-exec: {file} is an image, which `sfi exec` runs, and no program that sfi-cc linked (-o PROGRAM.elf)\n"
            self.assertEqual((done.returncode, done.stdout, done.stderr), (125, "", said))


if __name__ == "__main__":
    unittest.main()
