#!/usr/bin/env python3
"""Makes the libraries that programs are linked with, of those that rt built: for each crate a static one, with the C files
that it needs in it, and a shared one, which exports the calls of its header alone.

    tools/libraries.py                              # of each crates/CRATE/out/libCRATE.a that is built, in crates/CRATE/out/linked
    tools/libraries.py CRATE LIBRARY FOLDER         # of the static library LIBRARY, in FOLDER
    tools/libraries.py sfi_run_native LIBRARY COMMANDS FOLDER

The crates are sfi_c and sfi_run. sfi_run_native has the calls of sfi_run by native code (crates/sfi_native/include/sfi_run_native.h):
it is made of sfi_run and of COMMANDS, the library of sfi_tool_c, and goes beside sfi_run. It takes gcc, ar, ld and objcopy. What is
newer than all that it is made of stays.
"""
import glob
import os
import platform
import re
import shutil
import subprocess
import sys
import tempfile

TOP = os.path.dirname(os.path.dirname(os.path.abspath(__file__)))
sys.dont_write_bytecode = True
import version

HEADERS = {"sfi_c": "sfi.h", "sfi_run": "sfi_run.h"}
MORE_HEADERS = {"sfi_c": [], "sfi_run": ["sfi_run_serve.h", "sfi_run_limit.h", "sfi_run_snapshot.h",
                                         "sfi_run_sizes.h", "sfi_run_files.h"]}  # which declare no call of the library
C_FILES = {"sfi_c": [], "sfi_run": ["c/heap.c"]}


NATIVE = "sfi_run_native"  # made of sfi_run and sfi_tool_c
NATIVE_FLAGS = ["-std=gnu11", "-fno-builtin-malloc", "-fPIC", "-Wall", "-Wextra", "-Werror", "-Wno-unused-function"]  # malloc and memset become no calloc
NATIVE_INCLUDES = ["sfi_native", "sfi_translate", "sfi_run", "sfi_c", "sfi_tool_c"]
NATIVE_HEADER = os.path.join(TOP, "crates", "sfi_native", "include", f"{NATIVE}.h")
STEPPED = "sfi_stepped_"  # what the calls of sfi_run are called there


def path(crate, *parts):
    return os.path.join(TOP, "crates", crate, *parts)


def built(crate):
    """The static library as rt builds it."""
    return path(crate, "out", f"lib{crate}.a")


def header(crate):
    return path(crate, "include", HEADERS[crate])


def compatible_version():
    """The part of the version in which libraries have to agree so that one can stand for the other: the first number, or
    while that is 0 the first two."""
    first, second, _ = version.version().split(".")
    return f"0.{second}" if first == "0" else first


def shared_name(name):
    """The name by which programs ask for a shared library."""
    return f"lib{name}.so.{compatible_version()}"


def calls(file):
    """The names of the functions that a header declares."""
    with open(file, encoding="utf-8") as opened:
        text = re.sub(r"/\*.*?\*/", "", opened.read(), flags=re.DOTALL)
    return sorted(set(re.findall(r"\b(sfi_\w+)\s*\(", text)))


def run(*words):
    subprocess.run(words, check=True)


def add_c_files(crate, archive, room):
    """Adds a crate's C files to a library, each as a member of its own: a program that has such functions keeps its own."""
    for file in C_FILES[crate]:
        member = os.path.join(room, f"{crate}_{os.path.basename(file)[:-2]}.o")
        run("gcc", "-std=c11", "-O2", "-fPIC", "-Wall", "-Wextra", "-Werror", "-c", path(crate, file), "-o", member)
        run("ar", "rcsD", archive, member)


def make_static(crate, library, archive, room):
    """The library, and its C files."""
    shutil.copyfile(library, archive)
    add_c_files(crate, archive, room)


def link_shared(name, exported, archive, target, room, *options):
    """The shared library of a static one, which exports these calls, and calls its own also where another library has the same names."""
    listed = os.path.join(room, "exported.map")
    with open(listed, "w", encoding="utf-8") as file:
        file.write("{ global: " + " ".join(f"{it};" for it in exported) + " local: *; };\n")
    run("gcc", "-shared", "-o", target, f"-Wl,-soname,{shared_name(name)}", f"-Wl,--version-script={listed}", "-Wl,-Bsymbolic",
        "-Wl,--build-id=none", "-Wl,-z,defs", *options, "-Wl,--whole-archive", archive, "-Wl,--no-whole-archive")


def make_once(name, folder, sources, make_both):
    """The paths of two libraries, static and shared, which `make_both` makes where one isn't there or is older than the sources."""
    targets = [os.path.join(folder, f"lib{name}{ending}") for ending in (".a", ".so")]
    newest = max(os.path.getmtime(it) for it in sources)
    if all(os.path.exists(it) and os.path.getmtime(it) >= newest for it in targets):
        return targets
    os.makedirs(folder, exist_ok=True)
    with tempfile.TemporaryDirectory(dir=folder) as room:
        fresh = [os.path.join(room, os.path.basename(it)) for it in targets]
        make_both(*fresh, room)
        for one, target in zip(fresh, targets):
            os.replace(one, target)
    return targets


def make(crate, library=None, folder=None):
    """The paths of a crate's two libraries."""
    library, folder = library or built(crate), folder or path(crate, "out", "linked")

    def make_both(archive, target, room):
        make_static(crate, library, archive, room)
        link_shared(crate, calls(header(crate)), archive, target, room)
    return make_once(crate, folder, [library, header(crate), *(path(crate, it) for it in C_FILES[crate])], make_both)


# ---- sfi_run by native code


def native_sources():
    """The files of C that it is made of, its own first."""
    own = path("sfi_native", "include", f"{NATIVE}.c")
    return [own, *(it for crate in NATIVE_INCLUDES for it in sorted(glob.glob(path(crate, "include", "*"))) if it != own)]


def native_calls():
    """The calls of the library: those of sfi_run.h and of its own header."""
    return sorted(set(calls(header("sfi_run")) + calls(NATIVE_HEADER)))


def closed(library, exported, renamed, room):
    """An object of all that a static library has, in which these names alone are seen from outside, some by another name."""
    whole, names = (os.path.join(room, f"{os.path.basename(library)}.{it}") for it in ("o", "names"))
    run("ld", "-r", "--whole-archive", library, "-o", whole)
    with open(names, "w", encoding="utf-8") as file:
        file.writelines(f"{old} {new}\n" for old, new in renamed.items())
    run("objcopy", *(f"--keep-global-symbol={it}" for it in exported), whole)
    run("objcopy", f"--redefine-syms={names}", whole)
    return whole


def native_parts(library, commands, room):
    """Objects of the two libraries of Rattle, whose other names would meet in one program."""
    stepped = {it: it.replace("sfi_run_", STEPPED, 1) for it in calls(header("sfi_run"))}
    return [closed(library, stepped, stepped, room), closed(commands, ["sfi_tool_answer"], {}, room)]


def compile_native(own, compiler=("gcc", "-O2")):
    """The object of its C."""
    run(*compiler, *NATIVE_FLAGS, *(f"-I{path(it, 'include')}" for it in NATIVE_INCLUDES), "-c", native_sources()[0], "-o", own)


def make_native_static(library, commands, archive, room):
    """One member of all that is its own, and the heap."""
    member, own = (os.path.join(room, it) for it in (f"{NATIVE}.o", "own.o"))
    compile_native(own)
    run("ld", "-r", own, *native_parts(library, commands, room), "-o", member)
    run("objcopy", *(f"--keep-global-symbol={it}" for it in native_calls()), member)
    run("ar", "rcsD", archive, member)
    add_c_files("sfi_run", archive, room)


def make_native(library=None, commands=None, folder=None):
    """The paths of its two libraries, which go beside those of sfi_run."""
    library, commands = library or built("sfi_run"), commands or built("sfi_tool_c")

    def make_both(archive, target, room):
        make_native_static(library, commands, archive, room)
        link_shared(NATIVE, native_calls(), archive, target, room, "-Wl,-z,nodelete")  # its handler of SIGSEGV stays
    return make_once(NATIVE, folder or path("sfi_run", "out", "linked"),
                     [library, commands, *native_sources(), path("sfi_run", "c", "heap.c")], make_both)


def has_native():
    """Whether native code runs here."""
    return sys.platform == "linux" and platform.machine() == "x86_64"


def native_there():
    """The paths of its two libraries, which are made where they can be; nothing where they aren't there, as on other machines."""
    if has_native() and all(os.path.exists(built(it)) for it in ("sfi_run", "sfi_tool_c")):
        return make_native()
    found = [path("sfi_run", "out", "linked", f"lib{NATIVE}{ending}") for ending in (".a", ".so")]
    return found if all(map(os.path.exists, found)) else []


def all_built():
    """Makes all whose crates are built."""
    found = [*(make(crate) for crate in HEADERS if os.path.exists(built(crate))), native_there()]
    if found == [[]]:
        sys.exit(f"libraries: neither {' nor '.join(os.path.relpath(built(it)) for it in HEADERS)} is built")
    return found


def main(words):
    if words[:1] == [NATIVE] and len(words) == 4:
        found = [make_native(*words[1:])]
    elif len(words) == 3 and words[0] in HEADERS:
        found = [make(*words)]
    elif not words:
        found = all_built()
    else:
        sys.exit(f"usage: tools/libraries.py [CRATE LIBRARY FOLDER | {NATIVE} LIBRARY COMMANDS FOLDER]")
    for targets in found:
        for made in targets:
            print(os.path.relpath(made))


if __name__ == "__main__":
    main(sys.argv[1:])
