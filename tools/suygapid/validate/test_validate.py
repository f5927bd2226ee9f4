"""Tests of tools/sfi-validate: `tools/unit_tests.py tools/suygapid/validate`. It has nothing to say of what the converter makes of
the examples, and sees each mistake that is planted in one of the converter's passes."""
import os
import subprocess
import sys
import unittest
from concurrent.futures import ThreadPoolExecutor

from suygapid.cc.compilers import compiled, reserved
from suygapid.validate.files import compilers_object, rewritten_object
from suygapid.validate.mistakes import MISTAKES, MOVABLE
from suygapid.validate.validating import complaints
from testing import COMPILERS, OF_BINUTILS, TOOLS, TOP, Folder, by_turns, formats_due, needs, needs_a_compiler

EXAMPLES = ("arithmetic", "base64", "crc32", "hash", "json", "lz", "matrix", "regex", "sha256", "sort", "stack", "wordcount")
PASSES = os.path.join(os.path.dirname(os.path.abspath(__file__)), "passes.s")
# Two functions that gcc makes one of two names.
EQUAL = """int g(int);
__attribute__((noinline)) static int aa(int x) { return g(x * 3 + 1) + g(x); }
__attribute__((noinline)) static int bb(int x) { return g(x * 3 + 1) + g(x); }
int f(int x) { return aa(x) - 2 * bb(x + 1); }
int h(int x) { return bb(x) + aa(x + 1); }
"""
# One function by three names, one of which another file may define anew.
NAMES = """\t.text\n\t.globl\tone\n\t.set\ttwo,one\n\t.weak\tthree\n\t.set\tthree,one\n\t.globl\tother
one:\taddi\ta0,a0,1\n\tret\nother:\taddi\ta0,a0,2\n\tret
\t.globl\tmain\nmain:\taddi\tsp,sp,-16\n\tsw\tra,12(sp)\n\tcall\tCALLED\n\tlw\tra,12(sp)\n\taddi\tsp,sp,16\n\tret\n"""
MOVED = "-movable"  # ends the name of a way, by which a program can be moved
PATIENCE = 120  # seconds that a conversion may take


class Validation(Folder):
    def converted(self, source, places, module="", old="", new=""):
        """Runs the converter, with a mistake if one is given; `places` has a path for each way."""
        environment = dict(os.environ, PYTHONPYCACHEPREFIX=self.path("compiled"), PYTHONPATH=TOOLS)
        subprocess.run([sys.executable, "-m", "suygapid.validate.planted", module, old, new, source,
                        *(word for pair in places.items() for word in pair)], env=environment, check=True, timeout=PATIENCE)


@needs(*OF_BINUTILS)
class Marks(Validation):
    def test_names_that_a_host_knows(self):
        """A gate by SFI_IMPORT, which is no weak name any more, and one that is weak without a mark."""
        marked = "\t.globl\tadd\n\t.protected\tadd\nadd:\n\ttail\tprint\n\t.weak\tprint\n\t.protected\tprint\n"
        right, plain = self.write("marked.s", marked), self.write("plain.s", marked.replace("\t.protected\tprint\n", ""))
        for source in (right, plain):
            self.converted(source, {"2": self.path("rewritten.s")})
            said = complaints(compilers_object(source), rewritten_object(self.path("rewritten.s")), False)
            self.assertEqual(said, [])


@needs(*OF_BINUTILS)
class Mistakes(Validation):
    """Mistakes of the passes, by what they do to passes.s in words and in the second format."""

    def outputs(self, name, kind=""):
        return {image_format + kind: self.path(f"{name}.{image_format}{kind}.s") for image_format in ("words", "2")}

    def found(self, number):
        """What is said of a mistake, or that it changed nothing."""
        name, module, old, new = MISTAKES[number]
        is_movable = name.startswith(MOVABLE)
        places = self.outputs(str(number), MOVED * is_movable)
        self.converted(PASSES, places, module, old, new)
        lines = []
        for way, path in places.items():
            if self.read(os.path.basename(path)) != self.read(f"right.{way}.s"):
                lines.append(complaints(self.left, rewritten_object(path), is_movable))
        return name, lines

    def test_seen(self):
        self.left = compilers_object(PASSES)
        for kind in ("", MOVED):
            self.converted(PASSES, self.outputs("right", kind))
            for path in self.outputs("right", kind).values():
                self.assertEqual(complaints(self.left, rewritten_object(path), bool(kind)), [])
        with ThreadPoolExecutor(2) as pool:
            for name, lines in pool.map(self.found, by_turns(range(len(MISTAKES)), -(-len(MISTAKES) // 3))):
                with self.subTest(name):
                    self.assertTrue(lines, "the mistake changes nothing")
                    self.assertTrue(all(lines), "the mistake isn't seen")


@needs(*OF_BINUTILS)
class Aliases(Validation):
    """Functions of several names."""

    @needs_a_compiler
    def test_equal_functions(self):
        for number, compiler in enumerate(COMPILERS):
            for image_format in formats_due(number, 2):
                assembly, _ = compiled(compiler, [], self.write("equal.c", EQUAL), self.path(f"{compiler}.{image_format}"), reserved(image_format))
                output = self.path(f"{image_format}.s")
                self.converted(assembly, {image_format: output})
                with self.subTest(f"{compiler}, format {image_format}"):
                    self.assertEqual(complaints(compilers_object(assembly), rewritten_object(output)), [])

    def test_which_are_one(self):
        """By the name that the compiler's code calls and that which the rewritten code calls, whether there is something to say."""
        outputs = {}
        for name in ("one", "two", "three", "other"):
            source, outputs[name] = self.write(f"{name}.s", NAMES.replace("CALLED", name)), self.path(f"{name}.2.s")
            self.converted(source, {"2": outputs[name]})
        for called, alike in (("one", "one two"), ("two", "one two"), ("three", "three"), ("other", "other")):
            left = compilers_object(self.path(f"{called}.s"))
            found = [name for name, output in outputs.items() if not complaints(left, rewritten_object(output))]
            self.assertEqual(" ".join(found), alike, called)


@needs_a_compiler
class Examples(Validation):
    def one(self, compiler, name, formats):
        """What is said of an example by a compiler, in these formats, and if they are several also where it can be moved. In words
        the compiler leaves more registers alone."""
        found, source = [], os.path.join(TOP, "examples", "c", f"{name}.c")
        for image_format in formats:
            place = self.path(f"{name}.{compiler}.{image_format}")
            small = [] if "clang" in compiler else ["-msmall-data-limit=64"]
            assembly, _ = compiled(compiler, small, source, place, reserved(image_format))
            ways = (image_format, image_format + MOVED) if len(formats) > 1 else (image_format,)
            outputs = {way: os.path.join(place, f"{way}.s") for way in ways}
            self.converted(assembly, outputs)
            left = compilers_object(assembly)
            found += [line for way, path in outputs.items()
                      for line in complaints(left, rewritten_object(path), way.endswith(MOVED))]
        return found

    def test_nothing_to_say(self):
        pairs = by_turns([(compiler, name) for name in EXAMPLES for compiler in COMPILERS], 8)
        cases = [(*pair, formats_due(number, 6)) for number, pair in enumerate(pairs)]
        with ThreadPoolExecutor(2) as pool:
            for case, found in zip(cases, pool.map(lambda case: self.one(*case), cases)):
                with self.subTest(case):
                    self.assertEqual(found, [])


if __name__ == "__main__":
    unittest.main()
