"""Libraries as archives: a folder of assembly, or the one of a name, as tools/sfi-library makes it, and the functions of
floating point. Each is converted once for a format, and kept."""
import glob
import hashlib
import os
from concurrent.futures import ThreadPoolExecutor
from typing import Callable, Iterable, Sequence

from suygapid.cc.compilers import ASSEMBLY, HOSTED, WHOLE_PLUS_PLUS, Failed
from suygapid.elf.runtime import ingredients
from suygapid.elf.tools import Target, archived, assembled_file, rewritten_into
from suygapid.kept import kept
from suygapid.library import files, newlib, plus_plus, small_library, softfloat
from suygapid.library.sources import GCC_SOURCE

ARCHIVE = "library.a"
MANY = 40  # files of assembly: to convert more takes long
SMALL = "small"  # what a program has that asks for a library and names none
# What makes the folders of a name, by a compiler, in the order in which headers and functions are looked for.
NAMED: dict[str, Sequence[Callable[[str], str]]] = {
    "files": [files.folder_of, newlib.folder_of], "newlib": [newlib.folder_of], "c++": [plus_plus.folder_of, newlib.folder_of],
    SMALL: [small_library.folder_of]}


def assembly_of(folder: str) -> list[str]:
    """The paths of the files of assembly in a folder."""
    return sorted(path for path in glob.glob(os.path.join(glob.escape(folder), "*")) if path.endswith(ASSEMBLY))


def digest_of(path: str) -> str:
    with open(path, "rb") as file:
        return os.path.basename(path) + " " + hashlib.sha256(file.read()).hexdigest()


def make(folder: str, paths: Sequence[str], target: Target) -> None:
    """Fills a folder with the archive."""
    count = os.cpu_count() or 1
    with ThreadPoolExecutor(count) as pool:
        parts = [part for part in (paths[number::count] for number in range(count)) if part]
        texts = [text for found in pool.map(lambda part: rewritten_into(folder, part, target), parts) for text in found]
        objects = list(pool.map(object_of, sorted(texts)))
    archived(os.path.join(folder, ARCHIVE), objects)
    for path in objects:
        os.remove(path)


def object_of(text: str) -> str:
    """The path of the object that is made of a text, in the text's place."""
    output = os.path.splitext(text)[0] + ".o"
    assembled_file(text, output)
    os.remove(text)
    return output


def archive_of(folder: str, target: Target) -> str:
    """The path of the archive that is made of a folder's assembly for a target."""
    if not os.path.isdir(folder):
        raise Failed(2, f"{folder} is no folder")
    paths = assembly_of(folder)
    words = [*ingredients(target), *map(digest_of, paths)]
    long = f"{len(paths)} files of a library are converted for format {target.format}, which may take a minute"
    return os.path.join(kept("library", words, lambda room: make(room, paths, target), long if len(paths) > MANY else None), ARCHIVE)


def folders_of(libraries: Iterable[str], compiler: str) -> list[str]:
    """The folders of libraries that are named, or given as folders: `files` first, since it has its own of some of newlib's
    functions, and one that several want behind all of these."""
    ordered = sorted(libraries, key=lambda library: library != "files")
    found = [folder for library in ordered
             for folder in ([folder_of(compiler) for folder_of in NAMED[library]] if library in NAMED else [library])]
    return list(dict.fromkeys(reversed(found)))[::-1]


def headers(libraries: Sequence[str]) -> list[str]:
    """The options for the headers of libraries, with which a program is one of a hosted C. Where compilers know what
    functions do, they make calls of others of it, which the small library may not have."""
    folders = [os.path.join(library, "include") for library in libraries]
    found = [word for folder in folders if os.path.isdir(folder) for word in ("-isystem", folder)]
    is_whole = not any(os.path.exists(os.path.join(library, small_library.MARK)) for library in libraries)
    has_plus_plus = any(map(plus_plus.uncaught, libraries))
    return [HOSTED, *["-fbuiltin"] * is_whole, *[WHOLE_PLUS_PLUS] * has_plus_plus, *found] if found else []


class Libraries:
    """The archives that a program of some objects is linked with."""

    def __init__(self, options, folders, objects):
        self.have_exceptions = any(map(plus_plus.uncaught, folders)) and plus_plus.have_exceptions(objects)
        first = [] if self.have_exceptions else [there for folder in folders for there in plus_plus.uncaught(folder)]
        self.whole = [archive_of(folder, options.target) for folder in first]  # what takes the place of parts of the others
        self.archives = [archive_of(folder, options.target) for folder in folders]
        is_small, is_newlib = (any(os.path.exists(os.path.join(folder, mark)) for folder in folders)
                               for mark in (small_library.MARK, newlib.MARK))
        self.have_heap = is_small or is_newlib
        self.least_heap = small_library.HEAP if is_small else None  # where no option says what the heap has to have
        self.wanted = None  # what to install for floating point
        if softfloat.speaks_of_floats([path for path in objects if os.path.exists(path)]):
            folder = softfloat.folder_of(options.cc)
            if folder is None:
                self.wanted = GCC_SOURCE.wanted()
            else:
                self.archives.append(archive_of(folder, options.target))
