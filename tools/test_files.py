"""Tests of `sfi-cc --library files` and `sfi-exec --dir`: `tools/unit_tests.py tools test_files.py`. What each call does is compared
with a native program's; what it mustn't do, with what is in the folders afterwards. They are skipped where the compiler, newlib's
sources, the program or the library isn't there."""
import glob
import os
import pathlib
import shutil
import subprocess
import sys
import unittest

import libraries
from suygapid.kept import root
from testing import EACH_FORMAT, GCC, NEWLIB, SFI, SFI_CC, TOOLS, TOP, Folder, formats_due, needs, needs_a_compiler, needs_program

SFI_EXEC = str(TOOLS / "sfi-exec")
READY = os.path.exists(libraries.built("sfi_run")) or "SFI_RUN_LIBRARY" in os.environ
OWN = TOP / "examples" / "c" / "programs"
FILES = str(TOP / "examples" / "c" / "files.c")
STREAMS = str(TOP / "examples" / "c" / "plus_plus" / "files.cpp")
OPTIONS = ("-O2", "-std=c11", "-D_DEFAULT_SOURCE", "-Wall", "-Wextra", "-Werror")
OF_PLUS_PLUS = ("-O2", "-std=c++17", "-Wall", "-Wextra", "-Werror")

# Opens each of its words to read, then to write, and says what that answers.
OPENER = r"""
#include <stdio.h>
#include <string.h>
#include <errno.h>
int main(int count, char **words) {
    for (int index = 1; index < count; index++) {
        FILE *file = fopen(words[index], "r");
        int why = file ? 0 : errno;
        char text[20] = "";
        if (file)
            fgets(text, sizeof text, file), fclose(file);
        file = fopen(words[index], "a");
        printf("%s: %s, %s\n", words[index], why ? strerror(why) : text, file ? "opened" : strerror(errno));
        if (file)
            fclose(file);
    }
    return 0;
}
"""

# Writes until that fails, opens until that fails, and makes files until that fails.
FILLER = r"""
#include <errno.h>
#include <fcntl.h>
#include <stdio.h>
#include <unistd.h>
static const char *name(void) { return errno == ENOSPC ? "ENOSPC" : errno == EMFILE ? "EMFILE" : errno == EFBIG ? "EFBIG" : "another"; }
int main(void) {
    static char block[65536];
    int file = open("large", O_WRONLY | O_CREAT, 0600);
    long blocks = 0, opened = 0, made = 1;
    char path[20];
    while (write(file, block, sizeof block) == sizeof block) blocks++;
    printf("%ld blocks, %s\n", blocks, name());
    printf("%d %s\n", (int)lseek(file, 0x7fffffff, SEEK_SET) == 0x7fffffff, write(file, block, 1) < 0 ? name() : "written");
    while (open("large", O_RDONLY) >= 0) opened++;
    printf("%ld opened, %s\n", opened, name());
    close(file);
    for (; sprintf(path, "%ld", made), (file = open(path, O_WRONLY | O_CREAT, 0600)) >= 0; made++) close(file);
    printf("%ld made, %s\n", made, name());
    return 0;
}
"""
TRAPS = "int main(void) { __builtin_trap(); }\n"


class WithFiles(Folder):
    def setUp(self):
        super().setUp()
        self.env = {"SFI_RUN_LIBRARY": libraries.make("sfi_run")[1], **os.environ}
        self.work = self.room / "work"
        self.work.mkdir()

    def built(self, source, *words):
        """The path of the program of a file, or of a text."""
        path = source if os.path.exists(source) else self.write("program.c", source)
        program = self.path("program.elf")
        subprocess.run([SFI_CC, "--program", SFI, "--library", "files", *OPTIONS, *words, "-o", program, path], check=True)
        return program

    def ran(self, program, *words, given=b""):
        """The status of sfi-exec, what the program printed, and what standard error has."""
        done = subprocess.run([SFI_EXEC, "--program", SFI, *words[:-1], program, *words[-1]], capture_output=True, env=self.env, input=given,
                              check=False)
        return done.returncode, done.stdout.decode(), done.stderr.decode()

    def with_files(self, program, *words, options=(), folder=""):
        return self.ran(program, "--dir", f"{self.work}{folder}", *options, ["--", *words])


@needs_program
@needs_a_compiler
@needs(NEWLIB)
@unittest.skipUnless(READY, "the library of the runtime isn't built")
class Files(WithFiles):
    @needs("gcc")
    def test_each_call_is_a_native_one(self):
        native, there = self.path("native"), self.room / "there"
        there.mkdir()
        subprocess.run(["gcc", *OPTIONS, FILES, "-o", native], check=True)
        words = ("a word", "", "ü")
        wanted = subprocess.run([native, *words], cwd=there, env={"GREETING": "hello"}, stdout=subprocess.PIPE, check=True).stdout.decode()
        for format in sorted({*formats_due(0, 4), "2"} - {"1"}):  # the first has neither names nor the room
            program = self.built(FILES, "--format", format)
            self.assertEqual(self.with_files(program, *words, options=("--env", "GREETING=hello")), (0, wanted, ""))
            for path in there.iterdir():
                self.assertEqual((self.work / path.name).read_bytes(), path.read_bytes())
            shutil.rmtree(self.work)
            self.work.mkdir()

    @needs("g++", GCC)
    def test_streams_of_c_plus_plus(self):
        native, there, program = self.path("native"), self.room / "there", self.path("program.elf")
        there.mkdir()
        subprocess.run(["g++", *OF_PLUS_PLUS, STREAMS, "-o", native], check=True)
        wanted = subprocess.run([native, "a word", ""], cwd=there, stdout=subprocess.PIPE, check=True).stdout.decode()
        subprocess.run([SFI_CC, "--program", SFI, "--library", "c++", "--library", "files", "--heap", "400000", *OF_PLUS_PLUS, "-o", program,
                        STREAMS], check=True)
        self.assertEqual(self.with_files(program, "a word", ""), (0, wanted, ""))
        for name in ("rows", "copy"):
            self.assertEqual((self.work / name).read_bytes(), (there / name).read_bytes())
        self.assertEqual(sorted(it.name for it in self.work.iterdir()), ["copy", "rows"])

    @needs("gcc")
    def test_the_host_in_c(self):
        host, native, there, image = self.path("host"), self.path("native"), self.room / "there", self.path("program.image")
        there.mkdir()
        own = ["gcc", "-std=c11", "-O2", "-Wall", "-Wextra", "-pedantic", "-Werror", *(f"-I{TOP}/crates/{it}/include" for it in ("sfi_run", "sfi_c"))]
        subprocess.run([*own, TOP / "examples" / "run" / "files.c", libraries.make("sfi_run")[0], "-o", host], check=True)
        subprocess.run(["gcc", *OPTIONS, FILES, "-o", native], check=True)
        wanted = subprocess.run([native, "a word", ""], cwd=there, env={"GREETING": "hello"}, stdout=subprocess.PIPE, check=True).stdout
        subprocess.run([SFI_CC, "--program", SFI, "--library", "files", *OPTIONS, "-o", image, FILES], check=True)
        self.assertEqual(subprocess.run([host, image, self.work, "a word", ""], stdout=subprocess.PIPE, check=True).stdout, wanted)
        for path in there.iterdir():
            self.assertEqual((self.work / path.name).read_bytes(), path.read_bytes())
        self.assertEqual(subprocess.run([host, image, self.work / "data"], stderr=subprocess.DEVNULL, check=False).returncode, 5)

    def test_paths_that_lead_out(self):
        secret = self.room / "secret"
        secret.write_text("secret\n")
        (self.work / "below").mkdir()
        for name, target in (("link", secret), ("here", "below"), ("up", ".."), ("all", "/"), ("none", self.room / "made")):
            (self.work / name).symlink_to(target)
        (self.work / "file").write_text("inside\n")
        os.mkfifo(self.work / "fifo")
        paths = ["/data/file", "/data/./below/..//file", "/data/../secret", str(secret), "/etc/passwd", "/data/link", "/data/up/secret",
                 f"/data/all{secret}", "/data/here/new", "/data/none", "/data/fifo", "/data2/file", "file", "/data", "/data/below"]
        wanted = {"/data/file": "inside\n, opened", "/data": "Is a directory, Is a directory", "/data/below": "Is a directory, Is a directory"}
        told = "".join(f"{path}: {wanted.get(path, 'Permission denied, Permission denied')}\n" for path in paths)
        self.assertEqual(self.with_files(self.built(OPENER), *paths, folder="=/data"), (0, told, ""))
        self.assertEqual(secret.read_text(), "secret\n")
        self.assertEqual(sorted(it.name for it in self.room.iterdir()), ["program.c", "program.elf", "secret", "work"])
        self.assertEqual(list((self.work / "below").iterdir()), [])

    def test_read_only_and_the_longest_name(self):
        (self.work / "file").write_text("first\n")
        (self.room / "other").mkdir()
        (self.room / "other" / "file").write_text("second\n")
        program = self.built(OPENER)
        options = ("--dir", f"{self.room}/other=/data/other:ro")
        self.assertEqual(self.with_files(program, "/data/file", "/data/other/file", "/data/other/new", options=options, folder="=/data"),
                         (0, "/data/file: first\n, opened\n/data/other/file: second\n, Read-only file system\n"
                             "/data/other/new: No such file or directory, Read-only file system\n", ""))

    def test_limits(self):
        sys.path.insert(0, str(TOP / "bindings" / "python"))
        from sfi_run import Exited, Library, World, files
        from suygapid.elf.elf import Elf
        from suygapid.elf.image import image
        made = image([Elf(self.built(FILLER))])
        library = Library(self.env["SFI_RUN_LIBRARY"])
        limits = files.Limits(streams=5, growth=200_000, entries=7)
        told = self.path("told")
        descriptor = os.open(told, os.O_WRONLY | os.O_CREAT)
        with World(made, library) as world, files.Files([files.Folder(str(self.work))], limits=limits, streams=(0, descriptor, 2)) as host:
            self.assertEqual(host.run(made, world[0], library=library), Exited(0))
        os.close(descriptor)
        self.assertEqual(pathlib.Path(told).read_text(), "3 blocks, ENOSPC\n1 EFBIG\n4 opened, EMFILE\n7 made, ENOSPC\n")

    def test_without_a_host(self):
        program = self.built(FILES)
        status, told, said = self.ran(program, [])
        self.assertEqual((status, said), (0, ""))
        self.assertIn("no greeting\nopen a new file -1 ENOENT\n", told)

    def test_faults_of_words(self):
        program = self.built(TRAPS)
        status, told, said = self.with_files(program)
        self.assertEqual((status, told, said.splitlines()[0].split(" at=")[0]), (126, "", "sandbox=0 trap=Break"))
        self.assertIn("main", said)
        for options, reason in (((f"--dir={self.room}/none",), "none: No such file or directory"), ((f"--dir={program}=/x",), "Not a directory"),
                                ((f"--dir={self.work}=x",), "'x' is no absolute path without `..`"),
                                ((f"--dir={self.work}",) * 2, "two folders have the name '/'"),
                                ((f"--dir={self.work}=/a/../b",), "is no absolute path")):
            status, told, said = self.ran(program, *options, [])
            self.assertEqual((status, told), (125, ""), said)
            self.assertIn(reason, said)
        for words in (["--env=x", program], ["--env==x", program], ["--budget=x", program], ["--env=A=b", program, program]):
            self.assertEqual(subprocess.run([SFI_EXEC, *words], stderr=subprocess.DEVNULL, check=False).returncode, 2)


SQLITE = ["-DSQLITE_OMIT_LOAD_EXTENSION", "-DSQLITE_THREADSAFE=0", "-DSQLITE_OMIT_WAL", "-DSQLITE_MAX_MMAP_SIZE=0", "-DSQLITE_OMIT_DEPRECATED",
          "-DSQLITE_DEFAULT_MEMSTATUS=0", "-DSQLITE_TEMP_STORE=1", "-DSQLITE_DEFAULT_CACHE_SIZE=-100", "-DSQLITE_SORTER_PMASZ=20",
          "-DSQLITE_ENABLE_LOCKING_STYLE=0"]
ROWS = ["create table t(a integer primary key, b text, c real)",
        "with recursive n(i) as (select 1 union all select i + 1 from n where i < 100000) insert into t select i, 'row ' || i, i / 7.0 from n",
        "create index tb on t(b)", "select count(*), sum(a), max(b), round(total(c), 3) from t",
        "select a, b from t where b >= 'row 9998' order by b limit 5", "update t set c = -c where a % 1000 = 0",
        "select count(*), round(total(c), 3) from t where c < 0", "pragma integrity_check"]
EXPAT = "#define BYTEORDER 1234\n#define XML_CONTEXT_BYTES 1024\n#define XML_DTD 1\n#define XML_NS 1\n#define XML_POOR_ENTROPY 1\n"
SCRIPT = """
local file = assert(io.open("squares", "w"))
for i = 1, 1000 do file:write(i * i, "\\n") end
file:close()
local sum = 0
for line in io.lines("squares") do sum = sum + line end
print(sum, #arg, arg[1], os.getenv("GREETING"), os.rename("squares", "moved"), os.remove("moved"), os.remove("moved"))
"""


@needs_program
@needs_a_compiler
@needs(NEWLIB)
@unittest.skipUnless(READY, "the library of the runtime isn't built")
class Programs(WithFiles):
    """Programs that people have, of Debian's sources in the folder of examples/c/programs.py, beside native ones."""

    def sources(self, package):
        """The folder of a package's sources."""
        archive = max(glob.glob(os.path.join(os.environ.get("SFI_SOURCES") or os.path.join(root(), "sources"), f"{package}_*.orig.tar.*[!c]")),
                      default=None)
        if archive is None:
            self.skipTest(f"the sources of Debian's package {package} aren't there")
        tree = self.room / package
        tree.mkdir()
        subprocess.run(["tar", "-xf", archive, "-C", tree, "--strip-components=1"], check=True)
        return tree

    def compare(self, files, options, runs, *own):
        """What a program prints in runs of some words, one after another, beside a native one."""
        native, program, there = self.path("native"), self.path("program.elf"), self.room / "there"
        shutil.copytree(self.work, there)
        subprocess.run(["gcc", "-O1", "-w", *options, *files, "-o", native, "-lm"], check=True)
        subprocess.run([SFI_CC, "--program", SFI, "--library", "files", "-O2", "-w", *own, *options, "-o", program, *files], check=True)
        for words in runs:
            done = subprocess.run([native, *words], cwd=there, env={"GREETING": "hello"}, stdout=subprocess.PIPE, check=False)
            self.assertEqual(self.with_files(program, *words, options=("--env", "GREETING=hello")), (done.returncode, done.stdout.decode(), ""))

    @needs("gcc")
    def test_lua_reads_a_script(self):
        files = [path for path in sorted((self.sources("lua5.4") / "src").glob("*.c")) if path.name != "luac.c"]
        (self.work / "script.lua").write_text(SCRIPT)
        self.compare(files, ["-DLUA_COMPAT_5_3"], [["script.lua", "a word"]], "--heap", "400000")

    @needs("gcc")
    def test_expat_reads_files(self):
        [folder] = [path.parent for path in self.sources("expat").rglob("xmlparse.c")]
        (self.work / "wrong.xml").write_text("<a><b></a>")
        shutil.copy(OWN / "list.xml", self.work)
        self.write("expat_config.h", EXPAT)
        files = [folder / f"{name}.c" for name in ("xmlparse", "xmlrole", "xmltok")]
        self.compare([*files, OWN / "expat.c"], [f"-I{self.room}", f"-I{folder}"], [["list.xml", "wrong.xml"], ["list.xml"]])

    @unittest.skipUnless(os.environ.get(EACH_FORMAT), "SQLite takes minutes: by ./test --all")
    @needs("gcc", "tclsh", "make")
    def test_sqlite_over_a_file(self):
        tree = self.sources("sqlite3")
        for words in (["./configure", "--disable-tcl", "--disable-readline"], ["make", "sqlite3.c"]):
            subprocess.run(words, cwd=tree, stdout=subprocess.DEVNULL, stderr=subprocess.DEVNULL, check=True)
        self.write("sys/ioctl.h", "")
        self.compare([OWN / "sqlite_file.c", tree / "sqlite3.c"], [*SQLITE, f"-I{self.room}", f"-I{tree}"],
                     [["rows.db", *ROWS]], "--heap", "700000", "--stack", "65536")


if __name__ == "__main__":
    unittest.main()
