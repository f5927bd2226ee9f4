"""Runs a compiler on each file of a program, with the options that a sandbox wants, several at a time."""
import os
import re
import shutil
import subprocess
import sys
from typing import Iterable, Optional, Sequence

from suygapid import TOP
from suygapid.passes.typed import IN_WORDS

GCC, CLANG = "riscv64-unknown-elf-gcc", "clang"
RESERVED = (24, 25, 26, 27, 31)  # the sandbox's own registers
RESERVED_IN_WORDS = (*RESERVED, 29, 30)  # those of code in words, which a library keeps free for every format
LEVELS = {"-O": "-O1", "-Og": "-O1", "-Os": "-O2", "-Oz": "-O2", "-Ofast": "-O3"}  # those that llc hasn't
CASES = 64  # of more cases a `switch` is cheaper by a table of addresses than by branches
COMMON = ["-march=rv32imc", "-mabi=ilp32", "-fno-builtin", "-ffunction-sections", "-fdata-sections"]
OF_GCC = ["-Werror=trampolines", f"--param=case-values-threshold={CASES}"]
PLUS_PLUS = ["-fno-exceptions", "-fno-rtti", "-fno-threadsafe-statics"]
HOSTED = "-fhosted"  # what undoes -ffreestanding, which C++ isn't compiled with
EXCEPTIONS, TYPES = "-fexceptions", "-frtti"
WHOLE_PLUS_PLUS = "-fhosted=c++"  # stands for both, where the library has them, and is for no compiler
GCC_HEADERS = ["-idirafter", os.path.join(os.path.dirname(__file__), "plus_plus")]  # what C++ by gcc has where there is no C library
WITH_FRAMES = "-fasynchronous-unwind-tables"  # of a library, so that a debugger finds the callers of its functions
LAST = ["-fno-lto"]  # what outweighs the options that are given
TARGET = ["--target=riscv32-unknown-elf", "-fno-jump-tables"]  # llc makes tables of any five cases, or none
NAMES = "-fno-discard-value-names"  # llc takes no address of a block without a name after the block's function
LLC = ["-march=riscv32", "-target-abi=ilp32", "--function-sections", "--data-sections"]
HEADERS = ["-I", os.path.join(TOP, "examples", "c")]
SOURCES = (".c", ".i")
PLUS_PLUS_SOURCES = (".cc", ".cpp", ".cxx", ".C", ".ii")
WITH_MACROS = (".S", ".sx")  # assembly that a preprocessor goes over first
ASSEMBLY = (".s", ".asm")
OWN_CONVENTION = re.compile(r"^(define (?:\w+ )*?|.*?\b(?:call|invoke) (?:\w+ )*?)fastcc ")
WITH_VALUE = ("-I", "-D", "-U", "-include", "-imacros", "-isystem", "-iquote", "-idirafter", "-x", "-Xclang", "-mllvm")
OF_BINUTILS = {f"riscv64-unknown-elf-{it}": "binutils-riscv64-unknown-elf" for it in ("addr2line", "ar", "as", "ld", "objcopy")}
PACKAGES = {GCC: "gcc-riscv64-unknown-elf", CLANG: "clang", "llc": "llvm", **OF_BINUTILS}  # of Debian


class Failed(Exception):
    """A program that failed, or couldn't be run: the status to end in, and what the program said."""

    def __init__(self, status: int, reason: str, told: bytes = b"") -> None:
        super().__init__(reason)
        self.status = status
        self.told = told


def ran(words: Sequence[str], data: bytes = b"", folder: Optional[str] = None) -> tuple[bytes, bytes]:
    """What a program prints, run in a folder, and what it says on standard error. Where it fails, that includes what it printed."""
    try:
        done = subprocess.run(words, input=data, stdout=subprocess.PIPE, stderr=subprocess.PIPE, check=False, cwd=folder)
    except OSError as error:
        hint = f": Debian's package {PACKAGES[words[0]]} has it" if words[0] in PACKAGES else ""
        raise Failed(2, f"{words[0]} can't be run: {error.strerror}{hint}") from error
    if done.returncode:
        reason = f"{name_of(words)} failed, in status {done.returncode}"
        raise Failed(max(done.returncode, 1), reason, done.stderr + done.stdout)
    return done.stdout, done.stderr


def is_source(word: str) -> bool:
    """Whether a word of a command line, which isn't the value of the one before it, is a file to compile."""
    return word.endswith((*SOURCES, *PLUS_PLUS_SOURCES, *WITH_MACROS, *ASSEMBLY)) and not word.startswith("-")


def tell(said: bytes) -> None:
    sys.stderr.buffer.write(said)
    sys.stderr.flush()


def run(words: Sequence[str], data: bytes = b"") -> bytes:
    """What a program prints; what it says goes on to standard error."""
    printed, said = ran(words, data)
    tell(said)
    return printed


def name_of(words: Sequence[str]) -> str:
    """How a program is told: by its own name, and by the tool or the command that it was to run."""
    if words[0] == sys.executable:
        return os.path.basename(next(word for word in words[1:] if not word.startswith("-")))
    name = os.path.basename(words[1] if words[0] == "sh" else words[0])
    return f"{name} {words[1]}" if words[1:2] in (["build"], ["check"]) else name


def level(given):
    """The level of optimisation for llc: that of the last -O."""
    last = [word for word in ["-O2", *given] if word.startswith("-O")][-1]
    return LEVELS.get(last, last)


def language(file):
    """The options for C or C++. Without a hosted C++ a `main` is a name like any other."""
    return PLUS_PLUS if file.endswith(PLUS_PLUS_SOURCES) else ["-ffreestanding"]


def for_language(file, given):
    """The options that are given for all files, without what gcc takes for C alone, and without exceptions where there is no library
    for these."""
    is_whole, is_plus_plus = WHOLE_PLUS_PLUS in given, file.endswith(PLUS_PLUS_SOURCES)
    without = [WHOLE_PLUS_PLUS, *[HOSTED] * is_plus_plus, *[EXCEPTIONS] * (is_plus_plus and not is_whole)]
    return [*[EXCEPTIONS] * is_whole, *[TYPES] * (is_whole and is_plus_plus), *(word for word in given if word not in without)]


def key_of(compiler: str) -> list[str]:
    """What the code of a library depends on beside its sources and their own options."""
    return [version(compiler), str(RESERVED_IN_WORDS), str([COMMON, OF_GCC, PLUS_PLUS, LAST])]


def is_clang(compiler: str) -> bool:
    return "clang" in os.path.basename(compiler)


def default_compiler() -> str:
    return CLANG if shutil.which(CLANG) and not shutil.which(GCC) else GCC


def version(compiler: str) -> str:
    """What tells one compiler from another."""
    return ran([compiler, "--version"])[0].decode("utf-8", "replace")


def reserved(image_format: str) -> tuple[int, ...]:
    """The registers that are the sandbox's own in a format."""
    return RESERVED_IN_WORDS if image_format in IN_WORDS else RESERVED


def by_gcc(compiler, given, file, assembly, registers):
    fixed = [*OF_GCC, *GCC_HEADERS, *(f"-ffixed-x{number}" for number in registers)]
    return ran([compiler, "-S", "-O2", *COMMON, *fixed, *language(file), *for_language(file, given), *LAST, *HEADERS,
                "-o", assembly, file])[1]


def without_own_convention(line):
    """A line of LLVM's text where calls are as the RISC-V calling convention has them. LLVM's other one, for functions
    whose callers it all sees, takes registers for arguments that are the sandbox's own."""
    return OWN_CONVENTION.sub(r"\1", line) if line[:1] not in "@!" else line


def by_llc(llc: str, middle: str, words: Iterable[str], assembly: str, registers: Iterable[int]) -> bytes:
    """Makes the assembly of LLVM's text; what llc said."""
    with open(middle, encoding="utf-8", errors="surrogateescape") as file:
        text = "".join(map(without_own_convention, file))
    machine = "-mattr=+m,+c," + ",".join(f"+reserve-x{number}" for number in registers)
    return ran([llc, *words, *LLC, machine, "-o", assembly, "-"], text.encode("utf-8", "surrogateescape"))[1]


def by_clang(compiler, given, file, assembly, registers):
    """clang in two steps: in one, version 14 doesn't keep the sandbox's own registers free."""
    middle = assembly + ".ll"
    folder, name = os.path.split(compiler)
    llc = os.path.join(folder, name.replace("clang", "llc"))
    first = ran([compiler, "-S", "-emit-llvm", NAMES, "-O2", *TARGET, *COMMON, *language(file), *for_language(file, given),
                 *LAST, *HEADERS, "-o", middle, file])
    return first[1] + by_llc(llc, middle, [level(given)], assembly, registers)


def object_of(compiler: str, given: Iterable[str], file: str, output: str) -> None:
    """Makes an object as the compiler does by itself, whose code no sandbox has."""
    beside = TARGET if is_clang(compiler) else GCC_HEADERS
    ran([compiler, "-c", "-O2", *COMMON, *beside, *language(file), *for_language(file, given), *LAST, *HEADERS, "-o", output, file])


def preprocessed(compiler, given, file, assembly, _):
    target = TARGET if is_clang(compiler) else []
    return ran([compiler, "-E", *target, *COMMON, *for_language(file, given), *HEADERS, "-o", assembly, file])[1]


def compiled(compiler: str, given: Iterable[str], file: str, place: str, registers: tuple[int, ...] = RESERVED_IN_WORDS) -> tuple[str, bytes]:
    """The path of a file's assembly, which leaves some registers alone, and what the compiler said. Each has a folder
    `place` of its own, since two may have one name."""
    if file.endswith(ASSEMBLY):
        if not os.access(file, os.R_OK):
            raise Failed(1, f"{file} can't be read")
        return file, b""
    os.mkdir(place)
    assembly = os.path.join(place, os.path.splitext(os.path.basename(file))[0] + ".asm")
    compile_one = by_clang if is_clang(compiler) else by_gcc
    if file.endswith(WITH_MACROS):
        compile_one = preprocessed
    return assembly, compile_one(compiler, given, file, assembly, registers)
