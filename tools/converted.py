"""The libraries that a release has compiled and converted, so that sfi-cc doesn't have to at their first use: newlib, what
it has of files, floating point, the small library and what each program is linked with, by gcc in the usual format. Beside them are the licences of their
sources, which are Debian's packages newlib-source and gcc-12-source."""
import os
import pathlib
import shutil

from suygapid import kept
from suygapid.cc.compilers import GCC, Failed
from suygapid.elf import runtime
from suygapid.elf.tools import Target, binutil
from suygapid.library import newlib, softfloat
from suygapid.library.archives import SMALL, archive_of, folders_of
from suygapid.library.sources import GCC_SOURCE, NEWLIB_SOURCE, unpacked
from suygapid.passes.typed import USUAL

TOP = pathlib.Path(kept.RELEASED).resolve().parent.parent.parent
MADE = pathlib.Path(kept.RELEASED).relative_to(TOP)
TARGET = Target(USUAL)
LIBRARIES = ("files", "newlib", SMALL)
LICENCES = {NEWLIB_SOURCE: ("COPYING.NEWLIB",), GCC_SOURCE: ("COPYING3", "COPYING3.LIB", "COPYING.RUNTIME")}


def folders() -> list[str]:
    """The folders as they are kept here; those that aren't there are made. Failed tells what that wants."""
    for program in (GCC, binutil("as")):
        if not shutil.which(program):
            raise Failed(2, f"{program} isn't there")
    assembly = [*folders_of(LIBRARIES, GCC), softfloat.folder_of(GCC) or ""]
    return [runtime.folder_of(TARGET), *assembly, *(os.path.dirname(archive_of(folder, TARGET)) for folder in assembly)]


def licences() -> dict[str, pathlib.Path]:
    """The texts of the licences, by the names that they get."""
    return {f"{package.name}-{name}": pathlib.Path(unpacked(package, *names), name) for package, names in LICENCES.items() for name in names}


def files() -> dict[str, tuple[bytes, bool]]:
    """The bytes of each file of these folders and of the licences, and that it can't be run, by its path in the repository."""
    found = licences()
    names = {it.folder_of(GCC): it.released_name(GCC) for it in (newlib, softfloat)}
    for folder in map(pathlib.Path, folders()):
        found |= {f"{names.get(str(folder), folder.name)}/{path.relative_to(folder)}": path for path in folder.rglob("*") if path.is_file()}
    return {f"{MADE}/{name}": (path.read_bytes(), False) for name, path in found.items()}
