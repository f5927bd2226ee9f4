"""Tests of the results that are kept by content: `tools/unit_tests.py tools test_results.py`."""
import contextlib
import gc
import io
import os
import pathlib
import subprocess
import sys
import time
from concurrent.futures import ThreadPoolExecutor
from unittest import mock

import converted
import installed
from suygapid import kept, results
from suygapid.commands import asm2elf
from suygapid.elf import tools
from suygapid.elf.tools import Target
from suygapid.passes import rewriting
from testing import TOOLS, Folder

ASSEMBLY = "\t.text\n" + "".join(f"\t.globl f{number}\nf{number}:\n\tlw a5,0(a0)\n\tlw a4,4(a0)\n\tbeqz a5,.L{number}\n\tcall f{number // 2}\n"
                                 f"\tj f{number // 3}\n.L{number}:\n\tadd a0,a4,a5\n\tret\n\t.section .text.f{number},\"ax\"\n" for number in range(60))
PROCESS = "import sys; from suygapid.results import kept; sys.stdout.buffer.write(kept([b'x'], lambda: b'made ' * 100000))"


def wrong_pass(_):
    raise KeyError("of a pass")


class Results(Folder):
    def setUp(self):
        super().setUp()
        patch = mock.patch.dict(os.environ, SUYGAPID_CACHE=self.path("cache"))
        patch.start()
        self.addCleanup(patch.stop)

    def files(self):
        return [path for path in pathlib.Path(self.path("cache")).rglob("*") if path.is_file()]

    def test_hit(self):
        self.assertEqual(results.kept([b"text", b"option"], lambda: b"made"), b"made")
        self.assertEqual(results.kept([b"text", b"option"], self.fail), b"made")
        for parts in ([b"text", b"options"], [b"texto", b"ption"], [b"text", b"option", b""]):
            self.assertEqual(results.kept(parts, lambda: b"another"), b"another")

    def test_damaged(self):
        for damage in (lambda content: content[:-1], lambda content: b"", lambda content: content[:40] + b"?" + content[41:]):
            results.kept([b"text"], lambda: b"made " * 9)
            [path] = self.files()
            path.write_bytes(damage(path.read_bytes()))
            self.assertEqual(results.kept([b"text"], lambda: b"anew"), b"anew")
            self.assertEqual(results.kept([b"text"], self.fail), b"anew")
            path.unlink()

    def test_at_once(self):
        words = [sys.executable, "-c", PROCESS]
        with ThreadPoolExecutor(4) as pool:
            found = list(pool.map(lambda _: subprocess.run(words, cwd=TOOLS, capture_output=True, check=True).stdout, range(8)))
        self.assertEqual(found, [b"made " * 100000] * 8)
        self.assertEqual(len(self.files()), 1)

    def test_size(self):
        with mock.patch("suygapid.results.MOST", 4000), mock.patch("suygapid.results.place_of", lambda parts: self.path(f"cache/0/{parts[0]}")):
            for number in range(9):
                results.kept([number], lambda: os.urandom(1000))
            self.assertEqual([path.name for path in sorted(self.files())], ["6", "7", "8"])
            results.kept(["large"], lambda: os.urandom(10000))
            self.assertEqual(len(self.files()), 3)

    def test_folder_that_cannot_be(self):
        self.write("cache", "no folder")
        self.assertEqual(results.kept([b"text"], lambda: b"made"), b"made")

    def test_converted(self):
        """An option and another converter make another result; a kept one is the same."""
        path = self.write("a.s", ASSEMBLY)
        first = tools.rewritten(path, Target("words"))
        with mock.patch("suygapid.elf.tools.ran", self.fail):
            self.assertEqual(tools.rewritten(path, Target("words")), first)
        with mock.patch("suygapid.elf.tools.run_converter", self.converts_anew):
            self.assertEqual(tools.rewritten_each([path], Target("words"), is_kept=False), [b"anew"])
            self.assertEqual(tools.rewritten(path, Target("2")), b"anew")
            self.assertEqual(tools.rewritten(path, Target("words", is_checking=True)), b"anew")
            self.assertEqual(tools.rewritten_each([path], Target("words"), "known"), [b"anew"])
            with mock.patch("suygapid.elf.tools.converter", lambda: b"another"):
                self.assertEqual(tools.rewritten(path, Target("words")), b"anew")

    def converts_anew(self, folder, assemblies, _words):
        """In place of a converter, whose result for each file is another."""
        made = [os.path.join(folder, os.path.basename(it)) for it in assemblies]
        for path in made:
            pathlib.Path(path).write_bytes(b"anew")
        return made

    def test_converter(self):
        """The converter is files that are installed: what a release keeps by them is found after an installation."""
        for path in tools.files_of(tools.CONVERTER):
            self.assertTrue(installed.is_tool_file(pathlib.Path(path)), path)


class Made(Folder):
    """Folders that are made once and kept."""

    def setUp(self):
        super().setUp()
        for patch in (mock.patch.dict(os.environ, XDG_CACHE_HOME=self.path("home")), mock.patch("suygapid.kept.RELEASED", self.path("made"))):
            patch.start()
            self.addCleanup(patch.stop)

    def test_of_a_release(self):
        """One that a release brings isn't made; one that is made of something else is."""
        first = kept.kept("library", ["text"], lambda folder: None)
        os.mkdir(self.path("made"))
        os.rename(first, self.path(f"made/{os.path.basename(first)}"))
        self.assertEqual(kept.kept("library", ["text"], self.fail), self.path(f"made/{os.path.basename(first)}"))
        self.assertEqual(os.path.dirname(kept.kept("library", ["texts"], lambda folder: None)), self.path("home/suygapid"))

    def test_two_at_once(self):
        """One makes it, and the other waits."""
        made = []

        def make(folder):
            time.sleep(0.2)
            made.append(folder)

        with ThreadPoolExecutor(2) as pool:
            first, second = pool.map(lambda _: kept.kept("library", ["text"], make), range(2))
        self.assertEqual((len(made), first), (1, second))
        self.assertEqual(os.listdir(self.path("home/suygapid")), [os.path.basename(first)])

    def test_for_a_release(self):
        """Each file of the folders is packed where `kept` looks for it."""
        folder = kept.kept("library", ["text"], lambda folder: pathlib.Path(folder, "a.o").write_bytes(b"made"))
        self.write("COPYING.NEWLIB", "its licence")
        with (mock.patch("converted.folders", lambda: [folder]), mock.patch("converted.MADE", pathlib.Path("made")),
              mock.patch("converted.LICENCES", {converted.NEWLIB_SOURCE: ["COPYING.NEWLIB"]}), mock.patch("converted.unpacked", lambda *_: self.folder)):
            self.assertEqual(converted.files(), {f"made/{os.path.basename(folder)}/a.o": (b"made", False),
                                                 "made/newlib-source-COPYING.NEWLIB": (b"its licence", False)})


class Processes(Folder):
    def test_functions(self):
        """Several processes write what one does, and refuse what one does."""
        with mock.patch("suygapid.passes.rewriting.MANY", 0):
            for image_format in (1, 2, "words", "single"):
                wanted, found = (rewriting.rewritten("a.s", ASSEMBLY, image_format=image_format, jobs=jobs) for jobs in (1, 3))
                self.assertEqual(found, wanted)
            for jobs in (1, 3):
                with self.assertRaisesRegex(rewriting.Refused, r"\Aa\.s:\d+: a jump to a register plus a number\Z"):
                    rewriting.rewritten("a.s", ASSEMBLY + "\tjalr zero,4(a0)\n", jobs=jobs)

    def test_mistake_of_a_pass(self):
        """It is told once, with its traceback and the file's name, whichever process it shows in."""
        path, told = self.write("a.s", ASSEMBLY), io.StringIO()
        for jobs in ("1", "3"):
            with mock.patch("suygapid.passes.rewriting.MANY", 0), mock.patch("suygapid.passes.improving.with_pairs", wrong_pass):
                with mock.patch.object(sys, "argv", ["asm2elf", "--jobs", jobs, path]), contextlib.redirect_stderr(told):
                    self.assertEqual(asm2elf.main(), 1)
            gc.enable()
            self.assertRegex(told.getvalue(), r"\Aasm2elf: a\.s: a mistake of the converter:\nTraceback .*\n(  .*\n)+KeyError: 'of a pass'\n\Z")
            told.truncate(told.seek(0))
