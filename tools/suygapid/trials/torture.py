"""GCC's torture tests (gcc.c-torture/execute), or programs by csmith: what each does natively, by qemu-riscv32, beside what it does in a
sandbox, and which can't pass."""
import glob
import os
import re
import resource
import shutil
import subprocess
from collections import Counter
from dataclasses import dataclass

from suygapid import TOOLS, TOP
from suygapid.cc.compilers import GCC, Failed, ran
from suygapid.library.sources import GCC_SOURCE, unpacked
from suygapid.passes.typed import USUAL
from testing import CLANG, PICOLIBC, lacking

QEMU = "qemu-riscv32"
TESTS = "gcc/testsuite/gcc.c-torture/execute"
COMPILERS = {"gcc": GCC, "clang": CLANG}
LEVELS = ("-O0", "-O1", "-O2", "-O3", "-Os")
OF_SAMPLE = (USUAL, USUAL, "1", USUAL, "2", "words")  # the formats of a sample's tests
CSMITH = ["csmith", "--max-funcs", "4", "--max-block-depth", "3"]  # some 20 KB of C each
CSMITH_HEADERS = "/usr/include/csmith"
STACKS = (540000, 65536)  # the second where the data leave no room for the first
HEAP = 300000
MEMORY, SECONDS = 3 << 30, 300  # what a conversion may take
NATIVE_SECONDS, CSMITH_SECONDS = 30, 5  # many of csmith's programs never end
MACHINE = ["-march=rv32imc", "-mabi=ilp32"]
QUIET = ["-w", "-Wno-everything"]
DIRECTIVE = re.compile(r'dg-(?:options|additional-options)\s+"([^"]*)"\s*(\{\s*target)?')


@dataclass(frozen=True)
class Case:
    """A test, and the way it goes."""
    name: str
    compiler: str
    level: str
    image_format: str

    def __str__(self):
        return f"{self.name} by {self.compiler} {self.level}, format {self.image_format}"


@dataclass(frozen=True)
class Room:
    """What all cases share: the tests' folder, a folder for what is made, the program, sfi-cc's library, more options for it,
    whether each program is moved, and the seconds that a native run may take."""
    tests: str
    folder: str
    program: str
    library: str
    more: tuple
    is_moved: bool
    native_seconds: int

    def source(self, case):
        return os.path.join(self.tests, f"{case.name}.c")

    def options(self, case):
        """The level, and what the test itself asks for."""
        with open(self.source(case), encoding="latin-1") as file:
            asked = [words for words, target in DIRECTIVE.findall(file.read()) if not target]
        return [case.level, "-I", CSMITH_HEADERS, "-idirafter", self.tests, *(word for words in asked for word in words.split())]


def natively(room, case, place):
    """The status and the output of a test by qemu; None where it can't be built."""
    compiler = COMPILERS[case.compiler]
    target = ["--target=riscv32-unknown-elf"] if case.compiler == "clang" else []
    common = [compiler, *target, *MACHINE, "-isystem", f"{PICOLIBC}/include", *QUIET[:1 + len(target)]]
    try:
        ran([*common, *room.options(case), "-c", "-o", f"{place}.o", room.source(case)])
        ran([GCC, *MACHINE, "-nostdlib", "-o", f"{place}.native", os.path.join(room.folder, "start.o"), f"{place}.o",
             f"-L{PICOLIBC}/lib/rv32im/ilp32", "-Wl,--start-group", "-lc", "-lm", "-lgcc", "-Wl,--end-group"])
        done = subprocess.run([QEMU, f"{place}.native"], stdout=subprocess.PIPE, stderr=subprocess.DEVNULL, check=False,
                              timeout=room.native_seconds)
    except (Failed, subprocess.TimeoutExpired):
        return None
    return done.returncode, done.stdout


def hold_memory():
    """Holds what a process starts to some memory."""
    resource.setrlimit(resource.RLIMIT_AS, (MEMORY, MEMORY))


def linked(room, case, program):
    """Makes the program's ELF file, and answers why there is none."""
    given = [*QUIET[:1 + (case.compiler == "clang")], *room.more, *room.options(case)]
    words = [f"{TOOLS}/sfi-cc", "--cc", COMPILERS[case.compiler], "--format", case.image_format, "--library", room.library, "--heap",
             str(HEAP), *given, *["--movable"] * room.is_moved, "-o", program, room.source(case)]
    for stack in STACKS:
        try:
            done = subprocess.run([*words, "--stack", str(stack)], capture_output=True, check=False, timeout=SECONDS,
                                  preexec_fn=hold_memory)
        except subprocess.TimeoutExpired:
            return f"sfi-cc took more than {SECONDS} s"
        said = done.stderr.decode("utf-8", "replace")
        if "don't fit" not in said:
            break
    return f"{said[-300:]}, status {done.returncode}" if done.returncode else ""


def tried(task, sandboxed):
    """A case, and what is to be said of it, by what a function answers of it in a sandbox: nothing where it passes, None where it goes natively in another way."""
    room, case = task
    place = os.path.join(room.folder, str(case).replace(" ", "_"))
    wanted = natively(room, case, place)
    if wanted is None or wanted[0] != 0:
        return case, None
    found = sandboxed(room, case, place)
    shutil.rmtree(place, ignore_errors=True)
    for path in glob.glob(f"{glob.escape(place)}.*"):
        os.unlink(path)
    if found == wanted or case.name in PRINT_ADDRESSES and found[0] == wanted[0]:
        return case, ""
    return case, found if isinstance(found, str) else f"wanted {wanted}, found {found}"


def generated(options, folder):
    """The folder of csmith's programs, which include math.h and call nothing of it."""
    tests = os.path.join(folder, "tests")
    os.mkdir(tests)
    with open(os.path.join(tests, "math.h"), "w", encoding="utf-8"):
        pass
    for seed in range(options.seed, options.seed + options.csmith):
        subprocess.run([*CSMITH, "--seed", str(seed), "--output", f"csmith{seed:06}.c"], cwd=tests, check=True)
    return tests


def room_of(options, folder):
    if options.csmith:
        tests = generated(options, folder)
    else:
        tests = os.path.join(unpacked(GCC_SOURCE, TESTS), TESTS, "ieee" if options.ieee else "")
    ran([GCC, *MACHINE, "-O2", "-isystem", f"{PICOLIBC}/include", "-c", "-o", os.path.join(folder, "start.o"),
         os.path.join(TOP, "examples", "c", "torture", "start.c")])
    native_seconds = CSMITH_SECONDS if options.csmith else NATIVE_SECONDS
    return Room(tests, folder, os.path.abspath(options.program), options.library or "small", (), options.moved, native_seconds)


def names_of(room):
    """The tests, in an order that is always the same."""
    return sorted(os.path.basename(path)[:-2] for path in glob.glob(os.path.join(room.tests, "*.c")))


def ways_of(options, formats):
    """The ways by each compiler at each level in formats, one after another."""
    return [(compiler, level, image_format) for level in options.level for image_format in formats for compiler in options.compiler]


def sample_of(options, names, count):
    """Cases of some tests, each in another of the ways of a sample."""
    ways = ways_of(options, options.format or OF_SAMPLE)
    return [Case(name, *ways[number % len(ways)]) for number, name in enumerate(names[:count])]


def missing(options):
    """What isn't there that all tests need: words that say so, or none."""
    why = lacking(GCC, QEMU, PICOLIBC, "csmith" if options.csmith else GCC_SOURCE.name)
    return why or ("" if os.access(options.program, os.X_OK) else f"{options.program} isn't built")


def expected(case, said, library):
    """Why a test can't pass; nothing if it should."""
    if case.name in WANT_LIBRARY and not library:
        return "it wants the whole C library (--library newlib)"
    if case.compiler == "clang" and case.name in WANT_BUILTINS and not library:
        return "it wants functions that clang knows, as with the whole C library (--library newlib)"
    if NO_ROOM in said:
        return "its code is larger than the first format has room for"
    if (case.compiler, case.name) in UNDEFINED:
        return UNDEFINED[case.compiler, case.name]
    return CANNOT_PASS.get(case.name) if said.startswith("refused: ") else None


def count(results, library):
    """Tells what didn't pass, and counts."""
    counts = Counter()
    for case, said in results:
        known = expected(case, said, library) if said else None
        if said is None:
            counts["left out"] += 1
        elif not said:
            counts["passed"] += 1
        elif known:
            counts["skipped"] += 1
            print(f"skipped: {case}: {known}")
        else:
            counts["failed"] += 1
            print(f"FAILED {case}\n  {said}", flush=True)
    if counts["left out"]:
        print(f"left out, since they don't exit with 0 natively, or not in time: {counts['left out']}")
    return counts


NO_ROOM = "more than format 1 has room for"
PRINT_ADDRESSES = {"return-addr"}  # which differ from place to place
# Tests that pass natively by luck.
UNDEFINED = {("clang", "pr79286"): "clang makes no code of its main, which reads a variable that isn't set"}
# Tests that are refused with a message that says why, here in few words.
CANNOT_PASS = {
    "pr60822": "its data take more than 1 MiB",
    "cdivchkld": "newlib has no mathematical functions of long double",
}
WANT_LIBRARY = set("""20210505-1 920501-8 930513-1 980709-1 990826-0 fprintf-1 fprintf-chk-1 gofast pr56982 vfprintf-1
                      fp-cmp-1 fp-cmp-2 fp-cmp-3 struct-ret-1
                      float-floor""".split())  # FILE, floating point in printf, more headers, or floor
WANT_BUILTINS = set("20020314-1 20020720-1 20021113-1 20030125-1 20040223-1 941202-1 pr22061-1".split())
