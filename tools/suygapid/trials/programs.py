"""Programs that people have, of their sources as they are: what they are made of, and how sfi-cc makes them."""
import glob
import os
import platform
import re
import subprocess
import sys
from dataclasses import dataclass

from suygapid.elf.elf import Elf
from suygapid.library.sources import GCC_SOURCE, unpacked
from suygapid.trials import compiled, measure
from suygapid.trials.compiled import EXAMPLES, SFI_CC, SFI_IMAGE
from testing import GCC, NEWLIB, lacking

OWN = os.path.join(EXAMPLES, "programs")
GCC_PARTS = ("zlib", "libdecnumber", "libiberty", "include")
HEADERS = {  # what configurations would make: GCC's, and one of Mbed TLS in C alone, without files, network, clock and source of chance
    "config.h": "",
    "gstdint.h": "#include <stdint.h>\n",
    "mbedtls_here.h": "#define MBEDTLS_NO_PLATFORM_ENTROPY\n" + "".join(f"#undef MBEDTLS_{name}\n" for name in (
        "AESNI_C", "PADLOCK_C", "FS_IO", "NET_C", "TIMING_C", "HAVE_TIME", "HAVE_TIME_DATE", "PSA_ITS_FILE_C", "PSA_CRYPTO_STORAGE_C")),
}
MANGLED = re.compile(r"_[ZRD].{,157}", re.ASCII)
MOST_MANGLED = 360
KEYS = "/usr/share/keyrings/debian-archive-keyring.gpg"
RUN = ("run", "--rounds", "10000", "--quantum", "1000000")


@dataclass(frozen=True)
class Program:
    """The packages of a program, the patterns of the first one's files and of those that are left out, options, inputs (ours,
    the package's, or those of the other examples, one after another where + joins them), the bytes that malloc and the stack
    have, the folder of headers beside those of the files, a file that the program has as data.h, and the size of the data, if
    malloc has what the stack leaves of them. A file of our own has its main, if there is one of its name, or of that given here."""
    package: str
    files: str
    options: str = ""
    inputs: str = "empty"
    left_out: str = "-"
    heap: int = 400000
    stack: int = 65536
    library: str = "newlib"
    headers: str = "include"
    data: str = ""
    memory: str = ""
    main: str = ""

    def is_plus_plus(self):
        return self.library == "c++"

    def compiler(self):
        """The one for this machine."""
        return "g++" if self.is_plus_plus() else "gcc"


SQLITE = "-DSQLITE_OS_OTHER=1 -DSQLITE_THREADSAFE=0 -DSQLITE_OMIT_LOAD_EXTENSION -DSQLITE_TEMP_STORE=3"

PROGRAMS = {
    "lua": Program("lua5.4", "src/*.c", "-DLUA_COMPAT_5_3 -Dlua_stdin_is_tty()=0",
                   "calls.lua tables.lua strings.lua doubles.lua objects.lua", left_out="src/luac.c"),
    "cjson": Program("cjson", "cJSON.c", inputs="json-tree"),
    "bzip2": Program("bzip2", "blocksort.c huffman.c crctable.c randtable.c compress.c decompress.c bzlib.c", "-DBZ_NO_STDIO",
                     "bzip2.txt", heap=800000),
    "duktape": Program("duktape", "src/duktape.c", inputs="script.js"),
    "zlib": Program(GCC_SOURCE.name, "zlib/adler32.c zlib/compress.c zlib/crc32.c zlib/deflate.c zlib/inf[ft]*.c zlib/inflate.c "
                    "zlib/trees.c zlib/uncompr.c zlib/zutil.c"),
    "decnumber": Program(GCC_SOURCE.name, "libdecnumber/decContext.c libdecnumber/decNumber.c", "-DDECNUMDIGITS=50"),
    "demangle": Program(GCC_SOURCE.name, "libiberty/cp-demangle.c libiberty/cplus-dem.c libiberty/[dr]*-demangle.c "
                        "libiberty/safe-ctype.c", "-DHAVE_CONFIG_H -DHAVE_LIMITS_H -DHAVE_STDLIB_H -DHAVE_STRING_H", "mangled"),
    "tinyxml2": Program("tinyxml2", "tinyxml2.cpp", inputs="list.xml", library="c++"),
    "pugixml": Program("pugixml", "src/pugixml.cpp", "", "list.xml", library="c++"),
    "json": Program("nlohmann-json3", "", "-std=c++17", "json-tree", library="c++"),
    "mujs": Program("mujs", "one.c", inputs="classic.js"),
    "zstd": Program("libzstd", "lib/common/*.c lib/compress/*.c lib/decompress/*.c", "-DZSTD_DISABLE_ASM", "prose json-tree",
                    heap=700000, headers="lib"),
    "brotli": Program("brotli", "c/common/*.c c/enc/*.c c/dec/*.c", inputs="list.xml calls.lua", heap=566000, stack=10240,
                      headers="c/include"),
    "mbedtls": Program("mbedtls", "library/*.c programs/test/selftest.c", '-DMBEDTLS_USER_CONFIG_FILE="mbedtls_here.h"'),
    "sqlite": Program("libdbd-sqlite3-perl", "sqlite3.c", SQLITE, "shop.sql", heap=600000),
    "tinyscheme": Program("tinyscheme", "scheme.c", "-D_POSIX_C_SOURCE=200809 -DSTANDALONE=0 -DUSE_DL=0", "init.scm+queens.scm", heap=800000),
    "lodepng": Program("lodepng", "lodepng.cpp", "-DLODEPNG_NO_COMPILE_DISK", library="c++"),
    "truetype": Program("libstb fonts-tuffy", "", headers=".", data="Tuffy_Bold.ttf"),
    # In words alone: bundles have no room for these data.
    "brotli_window": Program("brotli", "c/common/*.c c/enc/*.c c/dec/*.c", headers="c/include", memory="64M"),
    "sqlite_memory": Program("libdbd-sqlite3-perl", "sqlite3.c", SQLITE, "sale.sql", memory="32M", main="sqlite"),
    "picture": Program("libstb", "", headers=".", memory="16M"),
}


def fetch(package, folder):
    """Has apt-get put the archives of a source package there. Where the machine's lists have no sources, as in Debian's containers,
    it takes lists of its own, in the folder; and the release's own package where a newer one is listed and isn't there."""
    os.makedirs(folder, exist_ok=True)
    words = ["source", "--download-only"]
    if apt_get(folder, [*words, package]):
        lists = own_lists(os.path.join(folder, "apt"))
        if lists and apt_get(folder, [*lists, *words, package]) and not apt_get(folder, [*lists, "update"]):
            release = platform.freedesktop_os_release().get("VERSION_CODENAME", "stable")
            if apt_get(folder, [*lists, *words, package]):
                apt_get(folder, [*lists, *words, f"{package}/{release}"])


def apt_get(folder, words):
    """The status of apt-get."""
    return subprocess.run(["apt-get", *words], cwd=folder, stdout=sys.stderr, check=False).returncode


def own_lists(folder):
    """apt-get's options for lists of sources, in a folder, from where this machine has Debian's packages; none where no file says so."""
    files = glob.glob("/etc/apt/sources.list.d/*.sources")
    texts = [it for it in (measure.contents(path).decode() for path in files) if KEYS in it]
    if not texts:
        return []
    for name in ("lists/partial", "archives/partial"):
        os.makedirs(os.path.join(folder, name), exist_ok=True)
    place = os.path.join(folder, "debian.sources")
    with open(place, "w", encoding="utf-8") as file:
        file.write("\n".join(re.sub("^Types: deb$", "Types: deb-src", it, flags=re.MULTILINE) for it in texts))
    settings = {"Dir::State::Lists": os.path.join(folder, "lists"), "Dir::Cache": folder, "Dir::Etc::SourceList": place,
                "Dir::Etc::SourceParts": "-"}
    return [word for name, value in settings.items() for word in ("-o", f"{name}={value}")]


def archive_of(package, options):
    """The path of a source package's archive, or None."""
    pattern = os.path.join(options.sources, f"{package}_*.orig.tar.*")
    if options.fetch and not glob.glob(pattern):
        fetch(package, options.sources)
    return max((path for path in glob.glob(pattern) if not path.endswith(".asc")), default=None)


def missing(program, options):
    """What isn't there of compilers, the library, and the sources of a program's packages: words that say so, or none."""
    why = lacking(program.compiler(), GCC, NEWLIB)
    absent = [] if why else [it for it in program.package.split() if it != GCC_SOURCE.name and not archive_of(it, options)]
    return f"the sources of Debian's package {absent[0]} aren't there (--fetch gets them)" if absent else why


def tree_of(program, options, folder):
    """The folder of a program's sources, beside that of each other package of its, or None."""
    if missing(program, options):
        return None
    if program.package == GCC_SOURCE.name:
        return unpacked(GCC_SOURCE, *GCC_PARTS)
    trees = [os.path.join(folder, package) for package in program.package.split()]
    for tree in trees:
        os.makedirs(tree, exist_ok=True)
        subprocess.run(["tar", "-xf", archive_of(os.path.basename(tree), options), "-C", tree, "--strip-components=1"], check=True)
    return trees[0]


def headers_of(name, tree, folder):
    """The folder, with the headers that a program's own configuration, or this table, makes."""
    data = PROGRAMS[name].data
    found = glob.glob(os.path.join(os.path.dirname(tree), "*", data)) if data else []
    texts = {**HEADERS, **{"data.h": f"static const unsigned char data[] = {{{','.join(map(str, measure.contents(path)))}}};\n" for path in found}}
    for header, text in texts.items():
        with open(os.path.join(folder, header), "w", encoding="utf-8") as file:
            file.write(text)
    return folder


def files_of(name, tree):
    """The files of a program, ours last."""
    program = PROGRAMS[name]
    found = [path for pattern in program.files.split() for path in sorted(glob.glob(os.path.join(tree, pattern)))]
    own = os.path.join(OWN, f"{program.main or name}.{'cpp' if program.is_plus_plus() else 'c'}")
    return [path for path in found if not path.endswith(program.left_out)] + [own] * os.path.exists(own)


def options_of(name, tree, folder):
    """The compiler's options: the headers are where the files are."""
    folders = [headers_of(name, tree, folder), os.path.join(tree, PROGRAMS[name].headers), *sorted({os.path.dirname(path) for path in files_of(name, tree)} - {OWN})]
    return ["-O2", "-w", *PROGRAMS[name].options.split(), *(word for place in folders for word in ("-I", place))]


def given_to(name, tree):
    """The bytes of an input."""
    if "+" in name:
        return b"".join(given_to(part, tree) for part in name.split("+"))
    if name == "mangled":
        paths = sorted(glob.glob(os.path.join(tree, "libiberty", "testsuite", "*demangle-expected")))
        lines = {line for path in paths for line in open(path, encoding="latin-1").read().splitlines()}
        return "".join(f"{line}\n" for line in sorted(filter(MANGLED.fullmatch, lines))[:MOST_MANGLED]).encode("latin-1")
    path = next((it for it in (os.path.join(OWN, name), os.path.join(tree, name)) if os.path.exists(it)), None)
    return compiled.input_of(name) if path is None else measure.contents(path)


def command_of(name, tree, folder, image_format, path):
    """The command that links a program there."""
    program = PROGRAMS[name]
    room = ["--memory", program.memory] if program.memory else ["--heap", str(program.heap)]
    return [SFI_CC, "--format", image_format, "--library", program.library, *room, "--stack", str(program.stack),
            *options_of(name, tree, folder), "-o", path, *files_of(name, tree)]


def built(name, tree, folder, image_format, options):
    """The linked program and its image, or what sfi-cc says."""
    path = os.path.join(folder, f"{name}.elf")
    words = [*command_of(name, tree, folder, image_format, path), *options.given]
    done = subprocess.run(words, stderr=subprocess.PIPE, check=False)
    if done.returncode:
        return None, done.stderr.decode("utf-8", "replace")
    image = subprocess.run([SFI_IMAGE, path], stdout=subprocess.PIPE, check=True).stdout
    verdict = subprocess.run([options.program, "check"], input=image, stdout=subprocess.PIPE, check=False)
    return (Elf(path), image) if verdict.returncode == 0 else (None, verdict.stdout.decode())


def code_size(elf):
    return sum(len(segment.content) for segment in elf.loaded() if segment.is_code)
