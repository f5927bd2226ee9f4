"""newlib for sandboxes: which of its files are compiled, with which options, and what is added to them."""
import glob
import os
import shutil
from typing import Iterable

from suygapid.cc.compilers import WITH_FRAMES, is_clang, key_of
from suygapid.kept import kept, name_of, released
from suygapid.library import softfloat
from suygapid.library.compiling import Job, compile_into
from suygapid.library.sources import GCC_SOURCE, NEWLIB_SOURCE, identity, unpacked

GLUE = os.path.join(os.path.dirname(os.path.abspath(__file__)), "newlib_glue")
MARK = "newlib-of-sfi-cc"  # a file that says what the folder is
PARTS = ("newlib/libc", "newlib/libm")
FOLDERS = [f"libc/{name}" for name in ("ctype", "errno", "locale", "misc", "reent", "search", "signal", "stdio", "stdlib",
                                       "string", "syscalls", "time")] + ["libm/common", "libm/math"]
POSIX = [f"libc/posix/{name}.c" for name in ("regcomp", "regerror", "regexec", "regfree", "collate", "collcmp")]
LEFT_OUT = {f"libc/{name}.c" for name in (
    "stdlib/mallocr", "stdlib/nano-mallocr",  # in VARIANTS, as the smaller malloc
    "stdio/nano-vfprintf", "stdio/nano-vfprintf_float", "stdio/nano-vfprintf_i",  # printf and scanf without floats
    "stdio/nano-vfscanf", "stdio/nano-vfscanf_float", "stdio/nano-vfscanf_i",
    "misc/init", "misc/fini",  # what runs before main is the converter's
    "stdlib/assert")}  # in system.c, without printf
LEFT_OUT |= {"libm/math/w_pow.c", "libm/math/wf_pow.c"}  # in pow.c, with the right signs
LEFT_OUT |= {"libm/math/e_sqrt.c", "libm/math/ef_sqrt.c"}  # in sqrt.c, in fewer steps
# Files that are compiled several times: the name of each, the file, and its options.
VARIANTS = [("vfiprintf", "libc/stdio/vfprintf.c", ["-DINTEGER_ONLY"]),
            ("svfprintf", "libc/stdio/vfprintf.c", ["-DSTRING_ONLY"]),
            ("svfiprintf", "libc/stdio/vfprintf.c", ["-DINTEGER_ONLY", "-DSTRING_ONLY"]),
            ("vfiscanf", "libc/stdio/vfscanf.c", ["-DINTEGER_ONLY"]),
            ("svfscanf", "libc/stdio/vfscanf.c", ["-DSTRING_ONLY"]),
            ("svfiscanf", "libc/stdio/vfscanf.c", ["-DINTEGER_ONLY", "-DSTRING_ONLY"])]
VARIANTS += [(f"nano-{name}", "libc/stdlib/nano-mallocr.c", ["-DINTERNAL_NEWLIB", f"-DDEFINE_{name.upper()}"])
             for name in ("malloc", "free", "realloc", "calloc", "cfree", "memalign", "valloc", "pvalloc", "mallinfo",
                          "malloc_stats", "malloc_usable_size", "mallopt")]
OPTIONS = ["-w", WITH_FRAMES, "-fhosted", "-fno-common", "-fno-tree-loop-distribute-patterns", "-D_LIBC", "-D_COMPILING_NEWLIB",
           "-D_POSIX_MODE"]  # the functions of math.h set errno, as its math_errhandling says
OF_GCC = {"-fno-tree-loop-distribute-patterns"}  # of these, what clang doesn't know
# Headers whose functions newlib has for other systems alone, or that want others of such a system. A program that asks for
# one of them isn't to find it. stdatomic.h is the compiler's own.
WITHOUT_FUNCTIONS = [f"{name}.h" for name in (
    "argz", "dirent", "envz", "fenv", "fnmatch", "glob", "grp", "iconv", "ieeefp", "libgen", "pthread", "pwd", "regdef",
    "sched", "spawn", "stdatomic", "termios", "threads", "utime", "utmp", "wordexp", "sys/dir", "sys/dirent", "sys/fenv",
    "sys/iconvnls", "sys/resource", "sys/timeb", "sys/utime")]
SEARCHED = ("libc/time", "libc/stdio", "libc/stdlib", "libc/locale", "libc/ctype", "libc/posix", "libc/string", "libm/common")


def jobs(tree):
    """The files to compile, each with a name of its own and its options."""
    paths = [path for folder in FOLDERS for path in sorted(glob.glob(f"{tree}/{folder}/*.c"))]
    for path in paths + [f"{tree}/{name}" for name in POSIX]:
        name = os.path.relpath(path, tree)
        if name not in LEFT_OUT:
            yield path, os.path.splitext(name)[0].replace("/", "-"), []
    for name, path, options in VARIANTS:
        yield f"{tree}/{path}", name, options


def headers(tree, folder):
    """Newlib's headers, with our choice of what it has."""
    shutil.copytree(f"{tree}/libc/include", folder)
    shutil.copytree(f"{tree}/libc/machine/riscv/sys", os.path.join(folder, "sys"), dirs_exist_ok=True)
    shutil.copy(os.path.join(GLUE, "newlib.h"), folder)


def compile_all(compiler: str, folder: str) -> None:
    """Fills a folder with the library."""
    tree = os.path.join(unpacked(NEWLIB_SOURCE, *PARTS), "newlib")
    include = os.path.join(folder, "include")
    headers(tree, include)
    own = [word for word in OPTIONS if not (is_clang(compiler) and word in OF_GCC)]
    options = [*own, "-isystem", include, *(word for part in SEARCHED for word in ("-I", f"{tree}/{part}"))]
    glue: list[Job] = [(os.path.join(GLUE, f"{name}.c"), f"sandbox-{name}", []) for name in ("system", "console", "pow", "sqrt")]
    compile_into(folder, compiler, options, [*jobs(tree), *glue])
    for name in WITHOUT_FUNCTIONS:
        os.remove(os.path.join(include, name))
    shutil.rmtree(os.path.join(include, "rpc"))
    shutil.copy(os.path.join(GLUE, "setjmp.asm"), folder)
    shutil.copytree(softfloat.folder_of(compiler) or "", folder, dirs_exist_ok=True)
    with open(os.path.join(folder, MARK), "w", encoding="utf-8") as file:
        file.write(f"newlib of {NEWLIB_SOURCE.where()}, by {compiler}\n")


def words_of(compiler: str, sources: Iterable[str], floats: str) -> list[str]:
    """All that the folder is made of: what tells of the sources, and the name of the folder of floating point."""
    own = []
    for path in sorted(glob.glob(os.path.join(GLUE, "*"))):
        with open(path, encoding="utf-8") as file:
            own.append(file.read())
    return [*key_of(compiler), *sources, *own, *OPTIONS, *sorted(LEFT_OUT), *FOLDERS, *POSIX, *WITHOUT_FUNCTIONS, str(VARIANTS), floats]


def released_name(compiler: str) -> str:
    """The folder's name in a release, which serves where the sources aren't there."""
    return name_of("newlib", words_of(compiler, (NEWLIB_SOURCE.name, GCC_SOURCE.name), softfloat.released_name(compiler)))


def folder_of(compiler: str) -> str:
    """The folder of the library by a compiler, which is kept, or that of a release."""
    there = released(released_name(compiler)) if not NEWLIB_SOURCE.is_named() and not GCC_SOURCE.is_named() else None
    if there:
        return there
    sources = [identity(package.path()) for package in (NEWLIB_SOURCE, GCC_SOURCE)]
    words = words_of(compiler, sources, os.path.basename(softfloat.folder_of(compiler) or ""))
    return kept("newlib", words, lambda folder: compile_all(compiler, folder),
                "newlib is compiled and converted, which takes some minutes")
