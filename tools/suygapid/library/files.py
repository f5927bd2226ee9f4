"""Files, a clock and random bytes for newlib's programs, of a host that serves the gate sfi_system."""
import os
import shutil

from suygapid.cc.compilers import WITH_FRAMES, is_clang, key_of
from suygapid.kept import kept
from suygapid.library import newlib
from suygapid.library.compiling import compile_into

GLUE = os.path.join(os.path.dirname(os.path.abspath(__file__)), "files_glue")


def compile_all(compiler: str, folder: str) -> None:
    """Fills a folder with the library."""
    own = [word for word in newlib.OPTIONS if not (is_clang(compiler) and word in newlib.OF_GCC)]
    include = os.path.join(folder, "include")
    shutil.copytree(os.path.join(GLUE, "include"), include)
    headers = ["-isystem", include, "-isystem", os.path.join(newlib.folder_of(compiler), "include")]
    compile_into(folder, compiler, [*own, *headers], [(os.path.join(GLUE, "files.c"), "sandbox-files", [])])


def folder_of(compiler: str) -> str:
    """The folder of the library by a compiler, which is kept."""
    own = []
    for name in ("files.c", "system_calls.h", "include/time.h", "include/sys/stat.h"):
        with open(os.path.join(GLUE, name), encoding="utf-8") as file:
            own.append(file.read())
    words = [*key_of(compiler), *own, *newlib.OPTIONS, WITH_FRAMES, os.path.basename(newlib.folder_of(compiler))]
    return kept("files", words, lambda folder: compile_all(compiler, folder))
