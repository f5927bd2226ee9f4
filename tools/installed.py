"""What `./install` puts where, and what it noted of an earlier installation."""
import contextlib
import os
import pathlib
import sys
from dataclasses import dataclass

import completions
import libraries
import version

TOP = pathlib.Path(__file__).resolve().parent.parent
sys.path.append(str(TOP / "bindings" / "python"))
from sfi_check import _built
from suygapid import native

SHARE = "share/suygapid"  # the tools, at the places that they have in the repository
NOTED = f"{SHARE}/installed"  # the list of all that was installed
TOOLS = ("sfi-cc", "sfi-check", "sfi-corpus", "sfi-exec", "sfi-gdb", "sfi-image", "sfi-library", "sfi-map", "sfi-move", "sfi-trace")
FOLDERS = ("tools/suygapid", "examples/c/include", "examples/c/library", "bindings/python", "bindings/rust", "bindings/node", "device")
SINGLE = ("tools/asm2elf", "examples/c/gates.h", "crates/sfi_c/include/sfi.h", "crates/sfi_slots/include/sfi_slots.h")
PAGES = ("sfi.1", "sfi-cc.1", "sfi-check.1", "sfi-corpus.1", "sfi-exec.1", "sfi-gdb.1", "sfi-image.1", "sfi-library.1", "sfi-map.1",
         "sfi-move.1", "sfi-trace.1")
DOCUMENTS = ("README.md", "CHANGELOG.md", "CONTRIBUTING.md", "SECURITY.md", "docs/*.md", "docs/*.png", "examples/*.s", "examples/smallest.hex",
             "examples/c/hello.c")  # at the same places below share/doc/suygapid
# What `find_package(suygapid)` of CMake reads, and by which it judges whether this version is the one asked for.
CMAKE = """\
get_filename_component(_suygapid_folder "${CMAKE_CURRENT_LIST_DIR}" REALPATH)
get_filename_component(_suygapid_prefix "${_suygapid_folder}/../../.." ABSOLUTE)
foreach(_suygapid_name sfi_c sfi_run sfi_run_native)
  if(NOT TARGET suygapid::${_suygapid_name} AND EXISTS "${_suygapid_prefix}/lib/lib${_suygapid_name}.so")
    add_library(suygapid::${_suygapid_name} SHARED IMPORTED)
    add_library(suygapid::${_suygapid_name}_static STATIC IMPORTED)
    set_target_properties(suygapid::${_suygapid_name} PROPERTIES
      IMPORTED_LOCATION "${_suygapid_prefix}/lib/lib${_suygapid_name}.so")
    set_target_properties(suygapid::${_suygapid_name}_static PROPERTIES
      IMPORTED_LOCATION "${_suygapid_prefix}/lib/lib${_suygapid_name}.a")
    set_target_properties(suygapid::${_suygapid_name} suygapid::${_suygapid_name}_static PROPERTIES
      INTERFACE_INCLUDE_DIRECTORIES "${_suygapid_prefix}/include")
  endif()
endforeach()
"""
CMAKE_VERSION = """\
set(PACKAGE_VERSION "{whole}")
if(PACKAGE_FIND_VERSION VERSION_GREATER "{whole}" OR PACKAGE_FIND_VERSION VERSION_LESS "{compatible}")
  set(PACKAGE_VERSION_COMPATIBLE FALSE)
else()
  set(PACKAGE_VERSION_COMPATIBLE TRUE)
endif()
if(CMAKE_SIZEOF_VOID_P AND NOT CMAKE_SIZEOF_VOID_P EQUAL 8)
  set(PACKAGE_VERSION_UNSUITABLE TRUE)
endif()
"""
TOLD = {"sfi_c": "The checker of Suygapid's images", "sfi_run": "Checks Suygapid's images and runs their sandboxes",
        libraries.NATIVE: "Checks Suygapid's images and runs their sandboxes by native code"}


@dataclass(frozen=True)
class Item:
    """A file below the prefix: a copy, a link, or a text."""
    place: str
    source: pathlib.Path = None
    link: str = None
    text: str = None

    def put(self, prefix):
        """Writes the file whole or not at all."""
        path = prefix / self.place
        fresh = path.with_name(f".{path.name}.new")
        fresh.unlink(missing_ok=True)
        if self.link is not None:
            fresh.symlink_to(self.link)
        else:
            fresh.write_bytes(self.text.encode() if self.source is None else self.source.read_bytes())
            fresh.chmod(0o755 if self.source and os.access(self.source, os.X_OK) else 0o644)
        os.replace(fresh, path)


def is_tool_file(path):
    """Whether a file of a tool's folder serves its user, and not its tests."""
    parts = path.relative_to(TOP).parts
    made = any(it in ("__pycache__", "target", "build", "tests", "trials", "validate", "validate.py") or it.endswith(".egg-info") for it in parts)
    return path.is_file() and not made and not path.name.startswith(("test_", "test.", "random_c"))


def package(crate):
    """The text of a library's pkg-config file, which holds wherever the folder is moved."""
    return (f"prefix=${{pcfiledir}}/../..\n\nName: {crate}\nDescription: {TOLD[crate]}\nVersion: {version.version()}\n"
            f"Cflags: -I${{prefix}}/include\nLibs: -L${{prefix}}/lib -l{crate}\n")


def cmake_files():
    """The files by which CMake finds the libraries."""
    folder = "lib/cmake/suygapid"
    judging = CMAKE_VERSION.format(whole=version.version(), compatible=libraries.compatible_version())
    return [Item(f"{folder}/suygapid-config.cmake", text=CMAKE), Item(f"{folder}/suygapid-config-version.cmake", text=judging)]


def library(name, static, shared, headers):
    """A static and a shared library, with their headers and their pkg-config file."""
    link, compatible = f"lib{name}.so", libraries.shared_name(name)
    whole = f"{link}.{version.version()}"
    return [
        *(Item(f"include/{os.path.basename(it)}", pathlib.Path(it)) for it in headers),
        Item(f"lib/lib{name}.a", pathlib.Path(static)),
        Item(f"lib/{whole}", pathlib.Path(shared)),
        Item(f"lib/{compatible}", link=whole),
        Item(f"lib/{link}", link=compatible),
        Item(f"lib/pkgconfig/{name}.pc", text=package(name)),
    ]


def all_libraries():
    """Those of the crates, and the one for native code where it is there."""
    found = []
    for crate in libraries.HEADERS:
        headers = [libraries.path(crate, "include", it) for it in (libraries.HEADERS[crate], *libraries.MORE_HEADERS[crate])]
        found += library(crate, *libraries.make(crate), headers)
    native_files = libraries.native_there()
    return found + (library(libraries.NATIVE, *native_files, [libraries.NATIVE_HEADER]) if native_files else [])


def items():
    """All that is installed but the list of it."""
    host = native.make()  # it lies among the tools, and hands on what the program does
    found = [Item(f"{SHARE}/sfi", TOP / "crates" / "sfi" / "out" / "sfi"),
             Item("bin/sfi", link=f"../{SHARE}/{os.path.relpath(host, TOP) if host else 'sfi'}")]
    found += all_libraries()
    found += cmake_files()
    for tool in TOOLS:
        found.append(Item(f"{SHARE}/tools/{tool}", TOP / "tools" / tool))
        found.append(Item(f"bin/{tool}", link=f"../{SHARE}/tools/{tool}"))
    files = [path for folder in FOLDERS for path in sorted((TOP / folder).rglob("*")) if is_tool_file(path)]
    files += [TOP / it for it in SINGLE]
    found.append(Item(f"{SHARE}/{_built.FILE}", text=_built.noted()))
    found += [Item(f"{SHARE}/{path.relative_to(TOP)}", path) for path in files]
    found += [Item(place, text=text) for place, text in completions.files([TOP / "tools" / it for it in TOOLS]).items()]
    found += [Item(f"share/man/man1/{page}", TOP / "docs" / page) for page in PAGES]
    documents = [path for named in DOCUMENTS for path in sorted(TOP.glob(named))]
    found += [Item(f"share/doc/suygapid/{path.relative_to(TOP)}", path) for path in documents]
    return found


def built():
    """What has to be built before anything can be installed."""
    return [TOP / "crates" / "sfi" / "out" / "sfi", *(pathlib.Path(libraries.built(crate)) for crate in libraries.HEADERS)]


def noted(prefix):
    """The files and the folders that an earlier installation noted."""
    try:
        lines = (prefix / NOTED).read_text(encoding="utf-8").splitlines()
    except FileNotFoundError:
        return [], []
    return [it for it in lines if not it.endswith("/")], [it for it in lines if it.endswith("/")]


def new_folders(prefix, places):
    """The folders below the prefix, with / at their ends, that aren't there and that the files need."""
    parents = {str(it) for place in places for it in pathlib.PurePosixPath(place).parents if it.parts}
    return sorted(f"{it}/" for it in parents if not (prefix / it).exists())


def clear(prefix, files, folders):
    """Removes these files, and then the folders of these that are empty."""
    for place in files:
        with contextlib.suppress(FileNotFoundError, NotADirectoryError):
            (prefix / place).unlink()
    for place in sorted(folders, reverse=True):
        with contextlib.suppress(OSError):  # it holds something else, or isn't there
            (prefix / place).rmdir()
