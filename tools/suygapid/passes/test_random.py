"""Compares random C programs in sandboxes with the same programs compiled natively.

    [SFI=PATH] [SEED=N] [COUNT=N] tools/unit_tests.py tools/suygapid/passes test_random.py

Each program goes through gcc at -O0 to -O3 and -Os and, where it is there, through clang at -O2, then
through the tool with all its passes. Two programs, the same each time, run in the usual format; one runs in each
format, one of six, by the number of commits. SEED=N in the
environment takes COUNT=N others from there on, each in each format. A failure names its seed. Where a
compiler isn't there the test is skipped."""
import os
import subprocess

from suygapid.passes.random_c import Program
from suygapid.passes.typed import USUAL
from testing import CLANG, COMPILERS, FORMATS, GCC, SFI, SFI_CC, TOP, Folder, needs, needs_program, sample

HERE = os.path.dirname(os.path.abspath(__file__))
EXAMPLES = os.path.join(TOP, "examples", "c")
USUALLY = (1, 2)  # the seeds of what is tried each time
STACK = 1 << 19  # the programs call themselves some hundred times
NATIVE = "gcc"
GCC_WAYS = [["-O0"], ["-O1"], ["-O2", "-fno-section-anchors", "-mno-explicit-relocs"], ["-Os"], ["-O3", "-funroll-loops"]]


def run(*words, data=None):
    return subprocess.run(words, input=data, stdout=subprocess.PIPE, stderr=subprocess.PIPE, check=False)


def native_answer(path, folder):
    """The exit code and the output of the program as the machine's own compiler makes it, in the
    words of `sfi run`."""
    program = os.path.join(folder, "native")
    words = [NATIVE, "-O1", "-w", "-fno-builtin", "-DNATIVE_GATES", "-I", EXAMPLES, "-I", HERE, "-o", program, path]
    subprocess.run(words, check=True)
    done = run(program)
    return f"exit={done.returncode} out={done.stdout.hex()}"


def programs():
    """The seeds of the programs, each with its formats."""
    if "SEED" in os.environ:
        first = int(os.environ["SEED"])
        return [(seed, FORMATS) for seed in range(first, first + int(os.environ.get("COUNT", 1)))]
    return [(seed, (USUAL,)) for seed in USUALLY] + [(max(USUALLY) + 1 + sample(), FORMATS)]


def ways():
    """Each compiler that is there with its words."""
    yield from ((GCC, way) for way in GCC_WAYS)
    if CLANG in COMPILERS:
        yield CLANG, ["-O2"]


def sandboxed_answer(compiler, way, path, image_format):
    words = ["--program", SFI, "--cc", compiler, "--format", image_format, "--stack", str(STACK), "-w", *way, "-I", HERE]
    image = run(SFI_CC, *words, path)
    if image.returncode:
        return image.stderr.decode()
    done = run(SFI, "run", "--rounds", "100", "--quantum", "1000000", data=image.stdout)
    return " ".join(word for word in done.stdout.decode().split() if not word.startswith(("sandbox=", "steps=")))


@needs_program
@needs(GCC, NATIVE)
class RandomPrograms(Folder):
    def test_answers(self):
        for seed, formats in programs():
            path = self.write("random.c", Program(seed).text())
            wanted = native_answer(path, self.folder)
            for compiler, way in ways():
                for image_format in formats:
                    found = sandboxed_answer(compiler, way, path, image_format)
                    self.assertEqual(found, wanted, f"SEED={seed}, {compiler} {' '.join(way)}, format {image_format}")
