"""Floating point: the functions of GCC's libgcc that compilers call where the machine has none. They are compiled from
GCC's sources, but for eight in files beside this one, once for each compiler, and kept."""
import glob
import os
import re
import shutil
from typing import Iterable, Optional

from suygapid.cc.compilers import WITH_FRAMES, key_of
from suygapid.kept import kept, name_of, released
from suygapid.library.compiling import compile_into
from suygapid.library.sources import GCC_SOURCE, identity, unpacked

PARTS = ("libgcc/soft-fp", "libgcc/config/riscv", "libgcc/libgcc2.c", "libgcc/libgcc2.h", "include/longlong.h")
FOLDER = os.path.dirname(os.path.abspath(__file__))
OWN = ("doubles", "double_quotients", "double_conversions")  # eight functions of doubles, in fewer steps
OWN_HEADER = "doubles.h"
# Of numbers of 32, 64 and 128 bits: those of arithmetic, comparisons, and from and to integers and each other.
SOFT_FP = re.compile(r"(add|sub|mul|div)[st]f3|(neg|eq|ge|le|unord)[sdt]f2|fix(uns)?[sdt]f[sd]i|float(un)?[sd]i[st]f|"
                     r"(extend(sfdf|sftf|dftf)|trunc(dfsf|tfsf|tfdf))2")
LIBGCC2 = [f"{name}" for mode in "sdt" for name in (f"mul{mode}c3", f"div{mode}c3", f"powi{mode}f2")]
CALLED = re.compile(rb"\b__\w*([sdt]f[23]|[sdt]c3|[sdt]f[sd]i|[sd]i[sdt]f)\b")  # what the assembly of floats speaks of
# What a compiler that builds libgcc defines by itself. The headers are of a part of GCC that isn't needed.
MODES = ["-D__libgcc_cmp_return__=SI", "-D__libgcc_shift_count__=SI", "-DMIN_UNITS_PER_WORD=4", "-include", "stddef.h",
         "-include", "limits.h"]
MODES += [f"-D__LIBGCC_{mode}F_{what}" for mode, name, digits, end in (("S", "FLT", 24, "f"), ("D", "DBL", 53, ""),
                                                                      ("T", "LDBL", 113, "l"))
          for what in (f"MANT_DIG__={digits}", f"FUNC_EXT__={end}", f"MAX__=__{name}_MAX__", f"MIN__=__{name}_MIN__",
                       f"EPSILON__=__{name}_EPSILON__")]
MODES += [f"-D__LIBGCC_HAS_{mode}F_MODE__" for mode in "SDT"]
# GCC's header makes the product of two words by four `mul`. This machine has `mulhu`.
LONGLONG = """\
#include_next "longlong.h"
#undef umul_ppmm
#define umul_ppmm(high, low, a, b) \\
    do { unsigned long long product_ = (unsigned long long)(a) * (b); (high) = product_ >> 32; (low) = product_; } while (0)
"""
EMPTY_HEADERS = ("tconfig.h", "tsystem.h", "coretypes.h", "tm.h", "libgcc_tm.h")


def speaks_of_floats(assemblies: Iterable[str]) -> bool:
    """Whether files of assembly call functions of floating point."""
    for path in assemblies:
        with open(path, "rb") as file:
            if CALLED.search(file.read()):
                return True
    return False


def jobs(tree, stubs):
    """The files to compile, each with the name of its function and its options."""
    folders = ["-I", stubs, "-I", f"{tree}/libgcc/config/riscv", "-I", f"{tree}/libgcc/soft-fp", "-I",
               f"{tree}/libgcc", "-I", f"{tree}/include"]
    for path in sorted(glob.glob(f"{tree}/libgcc/soft-fp/*.c")):
        name = os.path.splitext(os.path.basename(path))[0]
        if SOFT_FP.fullmatch(name):
            yield path, name, ["-w", *MODES[:1], *folders]
    for name in LIBGCC2:
        yield f"{tree}/libgcc/libgcc2.c", name, ["-w", *MODES, f"-DL_{name}", *folders]
    for name in OWN:
        yield os.path.join(FOLDER, f"{name}.c"), name, []


def compile_all(compiler, tree, folder):
    """Fills a folder with the assembly of each function."""
    stubs = os.path.join(folder, "stubs")
    os.makedirs(stubs)
    for name, text in {**dict.fromkeys(EMPTY_HEADERS, ""), "longlong.h": LONGLONG}.items():
        with open(os.path.join(stubs, name), "w", encoding="utf-8") as file:
            file.write(text)
    compile_into(folder, compiler, [WITH_FRAMES], jobs(tree, stubs))
    shutil.rmtree(stubs)


def words_of(compiler: str, source: str) -> list[str]:
    """All that the folder is made of, with what tells of the source."""
    own = []
    for name in (OWN_HEADER, *(f"{name}.c" for name in OWN)):
        with open(os.path.join(FOLDER, name), encoding="utf-8") as file:
            own.append(file.read())
    return [*key_of(compiler), source, *LIBGCC2, SOFT_FP.pattern, *MODES, LONGLONG, *own, WITH_FRAMES]


def released_name(compiler: str) -> str:
    """The folder's name in a release, which serves where the source isn't there."""
    return name_of("softfloat", words_of(compiler, GCC_SOURCE.name))


def folder_of(compiler: str) -> Optional[str]:
    """The folder of assembly that a compiler made of these functions, or that of a release; None where the sources aren't there."""
    there = released(released_name(compiler)) if not GCC_SOURCE.is_named() else None
    source = GCC_SOURCE.where()
    if there or source is None:
        return there
    return kept("softfloat", words_of(compiler, identity(source)), lambda folder: compile_all(compiler, unpacked(GCC_SOURCE, *PARTS), folder),
                "the functions of floating point are compiled, which may take a minute")
