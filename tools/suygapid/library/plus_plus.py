"""C++'s library for sandboxes: GCC's libstdc++ over newlib, without threads, with streams of char and the locale "C" alone, and
GCC's unwinder. Its own configure and make make its headers; some of its files are compiled. In a program that catches nothing, what
they throw ends it."""
import glob
import os
import re
import shutil
import tempfile
from typing import Iterable, NamedTuple, Sequence

from suygapid.cc.compilers import GCC, WHOLE_PLUS_PLUS, WITH_FRAMES, key_of, ran, version
from suygapid.elf.tools import binutil
from suygapid.kept import kept
from suygapid.library import newlib
from suygapid.library.compiling import Job, compile_into
from suygapid.library.sources import GCC_SOURCE, identity, unpacked

GLUE = os.path.join(os.path.dirname(os.path.abspath(__file__)), "plus_plus_glue")
# What configure and make read, beside libstdc++ but for its tests and documents.
PARTS = tuple(f"libstdc++-v3/{name}" for name in (
    "config", "config.h.in", "configure", "configure.host", "Makefile.in", "fragment.am", "include", "libsupc++", "scripts", "src",
    "doc/Makefile.in", "doc/xsl", "po/Makefile.in", "python/Makefile.in", "testsuite/Makefile.in"))
PARTS += ("config.guess", "config.sub", "config-ml.in", "install-sh", "ltmain.sh", "missing", "mkinstalldirs", "move-if-change",
          "gcc/BASE-VER", "gcc/DATESTAMP", "libgcc/gthr*.h", "libgcc/unwind*", "include")
MACHINE = "riscv32-unknown-elf"
CONFIGURED = [f"--host={MACHINE}", f"--target={MACHINE}", "--prefix=/", "--with-target-subdir=.", "--with-newlib", *(
    f"--disable-{name}" for name in ("multilib", "nls", "threads", "libstdcxx-threads", "shared", "libstdcxx-pch", "dependency-tracking",
                                     "libstdcxx-visibility", "libstdcxx-filesystem-ts", "libstdcxx-backtrace"))]
INSTALLED = (("include", ["install"]), ("libsupc++", ["install-stdHEADERS", "install-bitsHEADERS"]))
OF_PLUS_PLUS = ["-fno-implicit-templates"]
OF_STREAMS = ["-include", "char_alone.h"]
OF_STREAM_FILES = [*OF_PLUS_PLUS, *OF_STREAMS]


class Sources(NamedTuple):
    """Files of one of libstdc++'s folders that are compiled, and the standard and options for them."""
    folder: str
    standard: str
    names: str
    options: Sequence[str] = OF_PLUS_PLUS


# By the standard that the folder's Makefile has.
SOURCES = [
    Sources("libsupc++", "gnu++17",
            "array_type_info bad_alloc bad_array_length bad_array_new bad_cast bad_typeid class_type_info "
            "del_op del_opa del_opant del_opnt del_ops del_opsa del_opv del_opva del_opvant del_opvnt del_opvs "
            "del_opvsa dyncast eh_alloc eh_aux_runtime eh_call eh_catch eh_exception eh_globals eh_personality "
            "eh_ptr eh_term_handler eh_terminate eh_throw eh_type eh_unex_handler enum_type_info "
            "function_type_info fundamental_type_info hash_bytes nested_exception new_handler new_op "
            "new_opa new_opv new_opva pbase_type_info pmem_type_info pointer_type_info pure si_class_type_info "
            "tinfo tinfo2 vmi_class_type_info"),
    Sources("src/c++98", "gnu++98", "allocator-inst list locale_facets stdexcept tree"),
    Sources("src/c++98", "gnu++98", "codecvt globals_io ios_init ios_locale istream istream-string streambuf", OF_STREAM_FILES),
    Sources("src/c++98", "gnu++11", "locale", OF_STREAM_FILES),
    Sources("src/c++11", "gnu++11",
            "cow-stdexcept cow-string-inst cxx11-stdexcept functexcept functional hash_c++0x hashtable_c++0x limits "
            "placeholders regex shared_ptr snprintf_lite string-inst system_error wstring-inst"),
    Sources("src/c++11", "gnu++11", "cxx11-ios_failure", ["-U__cpp_rtti"]),  # without the failures of another kind of std::string
    Sources("src/c++11", "gnu++11",
            "ctype fstream-inst ios ios-inst iostream-inst istream-inst ostream-inst sstream-inst streambuf-inst string-io-inst",
            OF_STREAM_FILES),
    Sources("src/c++17", "gnu++17", "ostream-inst", OF_STREAM_FILES),
    Sources("src/c++17", "gnu++17", "string-inst"),
    Sources("src/c++20", "gnu++20", "sstream-inst", OF_STREAM_FILES),
    Sources("config/io", "gnu++98", "basic_file_stdio", OF_STREAM_FILES),
    Sources("config/locale/generic", "gnu++98", "c_locale codecvt_members collate_members ctype_members numeric_members", OF_STREAMS),
    Sources("config/os/newlib", "gnu++98", "ctype_configure_char", OF_STREAM_FILES),
]
# The files beside this one, and their options.
OWN: dict[str, list[str]] = {"classic": OF_STREAMS, "ended": [], "instances": OF_STREAMS, "nothrow": [], "terminating": []}
OWN_STANDARD = "gnu++17"
UNCAUGHT = "uncaught"  # the one for programs that catch nothing, and its folder
UNWINDER = ("unwind-dw2", "frames")  # GCC's unwinder, and what finds frames for it
OPTIONS = ["-w", WITH_FRAMES, WHOLE_PLUS_PLUS]
# What a compiler that builds libgcc has beside its options, and headers by what stands in them.
OF_UNWINDER = ["-fbuilding-libgcc", "-DIN_LIBGCC2", "-include", "stddef.h", "-include", "stdlib.h", "-include", "string.h"]
STUBS = {**dict.fromkeys(("tconfig.h", "coretypes.h", "libgcc_tm.h", "md-unwind-support.h"), ""),
         "tsystem.h": "#define gcc_assert(is_so) ((is_so) ? (void)0 : abort())\n#define gcc_unreachable() abort()\n",
         "tm.h": "#define DWARF_REG_TO_UNWIND_COLUMN(register) (register)\n",
         "unwind.h": '#include "unwind-generic.h"\n', "gthr-default.h": '#include "gthr-single.h"\n'}
THROWN = re.compile(rb"__gxx_personality_v0|__cxa_throw")  # what an object speaks of that catches exceptions, cleans up or throws
NO_EXCEPTIONS = re.compile(rb"exception handling disabled|with exceptions disabled")  # what gcc and clang say of throw and try
MISSING = re.compile(rb": fatal error: '?([a-z_]+)'?[: ]")  # a header without an ending that a compiler doesn't find
STREAMS = re.compile(rb"undefined reference to `[^']*?\b(std::(?:__cxx11::)?"
                     rb"(?:wc(?:in|out|err|log)\b|\w+(?=<wchar_t\b)|(?:time|money)\w*(?=<)|messages(?=<)))")


def advice(told: bytes) -> bytes:
    """A line for what a compiler or the linker complained of in C++: exceptions, a header of C++, or streams that aren't there."""
    missing, stream = MISSING.search(told), STREAMS.search(told)
    if NO_EXCEPTIONS.search(told):
        return b"sfi-cc: exceptions are those of --library c++, without -fno-exceptions and --movable\n"
    if missing:
        return b"sfi-cc: " + missing[1] + b": the headers of C++ are those of --library c++\n"
    return b"sfi-cc: " + stream[1] + b": --library c++ has streams of char alone, and no times and money of locales\n" if stream else b""


def configured(tree: str, folder: str) -> None:
    """Fills a folder with libstdc++'s headers, as a build by gcc over newlib installs them."""
    words = f"{GCC} -march=rv32imc -mabi=ilp32 -isystem {newlib.folder_of(GCC)}/include"
    tools = [f"{name.upper()}={binutil(name)}" for name in ("ar", "as", "ld", "nm", "ranlib", "strip")]
    with tempfile.TemporaryDirectory() as room:
        build = ran(["sh", os.path.join(tree, "config.guess")])[0].decode().strip()
        ran(["sh", os.path.join(tree, "libstdc++-v3", "configure"), f"--build={build}", *CONFIGURED, f"CC={words}", f"CXX={words}", *tools],
            folder=room)
        for part, targets in INSTALLED:
            ran(["make", "-C", os.path.join(room, part), *targets, f"DESTDIR={room}/made"])
        [made] = glob.glob(f"{room}/made/include/c++/*")
        for path in (made, os.path.join(made, MACHINE)):
            shutil.copytree(path, folder, dirs_exist_ok=True)
    shutil.rmtree(os.path.join(folder, MACHINE))


def headers_of(tree: str) -> str:
    """The folder of the headers, which is kept. clang uses those of gcc, which says by itself that there is one thread."""
    words = [version(GCC), tree, *CONFIGURED, str(INSTALLED), os.path.basename(newlib.folder_of(GCC))]
    return kept("plus_plus_headers", words, lambda folder: configured(tree, folder))


def own(name: str, options: Iterable[str] = ()) -> Job:
    return os.path.join(GLUE, f"{name}.cc"), f"sandbox-{name}", [f"-std={OWN_STANDARD}", *options]


def jobs(tree: str) -> list[Job]:
    """The files of C++ to compile."""
    found = [own(name, options) for name, options in OWN.items()]
    for sources in SOURCES:
        folder, options = sources.folder, [f"-std={sources.standard}", *sources.options]
        found += [(f"{tree}/libstdc++-v3/{folder}/{name}.cc", f"{folder.replace('/', '-')}-{name}", options)
                  for name in sources.names.split()]
    return found


def compile_unwinder(folder: str, options: list[str]) -> None:
    """Adds the unwinder, which gcc alone compiles."""
    stubs = os.path.join(folder, "stubs")
    os.mkdir(stubs)
    for name, text in STUBS.items():
        with open(os.path.join(stubs, name), "w", encoding="utf-8") as file:
            file.write(text)
    tree = unpacked(GCC_SOURCE, *PARTS)
    places = (f"{tree}/libgcc/unwind-dw2.c", os.path.join(GLUE, "frames.c"))
    compile_into(folder, GCC, [*options, *OF_UNWINDER, "-I", stubs, "-I", f"{tree}/include"],
                 [(path, f"sandbox-{name}", []) for path, name in zip(places, UNWINDER)])
    shutil.rmtree(stubs)


def compile_all(compiler: str, folder: str) -> None:
    """Fills a folder with the library."""
    tree, include = unpacked(GCC_SOURCE, *PARTS), os.path.join(folder, "include")
    shutil.copytree(headers_of(tree), include)
    libgcc, newlibs = ["-I", f"{tree}/libgcc"], ["-isystem", os.path.join(newlib.folder_of(compiler), "include")]
    found = [*OPTIONS, "-isystem", include, *newlibs, "-I", f"{tree}/libstdc++-v3/libsupc++", *libgcc, "-I", GLUE]
    compile_into(folder, compiler, found, jobs(tree))
    compile_unwinder(folder, [*OPTIONS, *newlibs, *libgcc])
    os.mkdir(os.path.join(folder, UNCAUGHT))
    compile_into(os.path.join(folder, UNCAUGHT), compiler, found, [own(UNCAUGHT)])


def uncaught(folder: str) -> list[str]:
    """The folder of what goes before the library of a folder in a program that catches nothing, if it's this library."""
    there = os.path.join(folder, UNCAUGHT)
    return [there] if os.path.isdir(there) else []


def have_exceptions(objects: Iterable[str]) -> bool:
    """Whether some objects and archives throw exceptions, catch them, or have anything to do where one leaves a function."""
    for path in objects:
        with open(path, "rb") as file:
            if THROWN.search(file.read()):
                return True
    return False


def folder_of(compiler: str) -> str:
    """The folder of the library by a compiler, which is kept."""
    glue = []
    for path in sorted(glob.glob(os.path.join(GLUE, "*"))):
        with open(path, encoding="utf-8") as file:
            glue.append(file.read())
    words = [*key_of(compiler), version(GCC), identity(GCC_SOURCE.path()), *glue, *PARTS, *CONFIGURED, str(INSTALLED), str(SOURCES),
             str(OWN), OWN_STANDARD, *OPTIONS, *OF_UNWINDER, str(STUBS), os.path.basename(newlib.folder_of(compiler))]
    return kept("plus_plus", words, lambda folder: compile_all(compiler, folder),
                "libstdc++ is compiled and converted, which takes some minutes; it is kept")
