"""Tests of sfi-cc: `tools/unit_tests.py tools`. Where a compiler or the program isn't there, stand-ins that
print or fail as the test wants show what becomes of each step; the tests of the real ones are skipped."""
import os
import shutil
import struct
import subprocess
import sys

from suygapid.services import GATES
from testing import CLANG, COMPILERS, FORMATS, GCC, OF_BINUTILS, SFI, SFI_CC, SFI_IMAGE, Folder, formats_due, needs, needs_program

HELLO = '#include "gates.h"\n\nint main(void) {\n    put("Hi", 2);\n    return 105;\n}\n'
ASSEMBLY = "\t.text\n\t.globl\tmain\nmain:\n\tli\ta0,7\n\tret\n"

# A compiler that writes the assembly beside it, and a program sfi whose check prints words.
COMPILER = '#!/bin/sh\necho "$*" >>{folder}/words\nwhile [ "$1" != -o ]; do shift; done\ncp {folder}/main.asm "$2"\n'
PROGRAM = '#!/bin/sh\ncat >{folder}/$1.input\n{check}\n'
BINUTILS = "riscv64-unknown-elf-"
STACK = struct.pack("<IB", 8192, 6) + b".stack"  # the claim of a program that was linked without --stack
VERDICT = "refused findings=1 first=V5 sandbox=0 at=01000000"


class Calls(Folder):
    @staticmethod
    def call(*words):
        """The status of a call, its output, and the lines on standard error."""
        done = subprocess.run([SFI_CC, *words], stdout=subprocess.PIPE, stderr=subprocess.PIPE, check=False, text=True)
        return done.returncode, done.stdout, done.stderr.splitlines()


@needs(*OF_BINUTILS)
class Steps(Calls):
    """What becomes of each step's answer."""

    def setUp(self):
        super().setUp()
        self.write("main.asm", ASSEMBLY)
        self.file = self.write("main.c", "")
        self.compiler = self.write("cc", COMPILER.format(folder=self.folder), 0o755)

    def made(self, *words, check="echo accepted", compiler=None):
        program = self.write("program", PROGRAM.format(folder=self.folder, check=check), 0o755)
        return self.call("--cc", compiler or self.compiler, "--program", program, *words, self.file)

    def listed(self, *words):
        """The symbols of a program by their names, and the header of its image."""
        self.assertEqual(self.made(*words, "-o", self.path("listed.elf")), (0, "", []))
        listing = subprocess.run([f"{BINUTILS}nm", "--defined-only", self.path("listed.elf")], capture_output=True, check=True, text=True).stdout
        return {line.split()[-1]: int(line.split()[0], 16) for line in listing.splitlines()}

    def test_all_pass(self):
        status, image, told = self.made()
        self.assertEqual((status, told), (0, []))
        self.assertEqual(self.read("check.input"), image)
        self.assertEqual(bytes.fromhex(image)[:4], b"SFIS")

    def test_which_fails(self):
        rows = [
            ({"check": f"echo {VERDICT}; exit 1"}, 1, [VERDICT, "sfi-cc: program check failed, in status 1"]),
            ({"check": "exit 4"}, 4, ["sfi-cc: program check failed, in status 4"]),
            ({"check": "kill -9 $$"}, 1, ["sfi-cc: program check failed, in status -9"]),
            ({"compiler": "/nothing/gcc"}, 2, ["sfi-cc: /nothing/gcc can't be run: No such file or directory"]),
        ]
        for stand_ins, status, told in rows:
            output = self.write("kept.hex", "as it was")
            self.assertEqual(self.made("-o", output, **stand_ins), (status, "", told))
            self.assertEqual(self.read("kept.hex"), "as it was")
            self.assertEqual(self.made(**stand_ins), (status, "", told))

    def test_a_compiler_that_is_not_there(self):
        done = subprocess.run([sys.executable, SFI_CC, self.write("main.c", "int x;\n")], capture_output=True, text=True, check=False,
                              env={**os.environ, "PATH": self.folder})
        self.assertEqual((done.returncode, done.stdout, done.stderr), (2, "", f"sfi-cc: {GCC} can't be run: No such file or directory:"
                                                                              " Debian's package gcc-riscv64-unknown-elf has it\n"))

    @needs("clang", "llc")
    def test_an_assembler_that_is_not_there(self):
        for name in ("clang", "llc"):
            os.symlink(shutil.which(name), self.path(name))
        done = subprocess.run([sys.executable, SFI_CC, "--no-cache", self.write("main.c", "int main(void) { return 0; }\n")], capture_output=True, text=True,
                              check=False, env={**os.environ, "PATH": self.folder})
        self.assertEqual((done.returncode, done.stdout), (2, ""))
        self.assertEqual(done.stderr.splitlines()[-1], "sfi-cc: riscv64-unknown-elf-as can't be run: No such file or directory:"
                                                       " Debian's package binutils-riscv64-unknown-elf has it")

    def test_compiler_fails(self):
        compiler = self.write("failing", "#!/bin/sh\necho main.c:1: error >&2\nexit 1\n", 0o755)
        self.assertEqual(self.made("-o", self.path("new.hex"), compiler=compiler),
                         (1, "", ["main.c:1: error", "sfi-cc: failing failed, in status 1"]))
        self.assertFalse(os.path.exists(self.path("new.hex")))

    def test_converter_fails(self):
        self.write("main.asm", ASSEMBLY + "\tecall\n")
        told = ["asm2elf: main.asm:6: ecall: a sandbox calls its host through gates alone",
                "sfi-cc: asm2elf failed, in status 1"]
        self.assertEqual(self.made(), (1, "", told))

    def test_keep(self):
        """The linked program beside the image, also where the check fails."""
        for options, status in [({}, 0), ({"check": "exit 2"}, 2)]:
            self.assertEqual(self.made("--keep", self.path("kept.elf"), **options)[0], status)
            with open(self.path("kept.elf"), "rb") as file:
                self.assertEqual(file.read(4), b"\x7fELF")
            os.remove(self.path("kept.elf"))

    def test_kinds_of_files(self):
        """What the compiler is asked for by a file's name. An assembly is taken as it is."""
        common, plus_plus = "-fdata-sections", "-fno-exceptions -fno-rtti"
        rows = [("x.c", f"-S.*{common}", plus_plus), ("x.cc", f"-S.*{common}.*{plus_plus}", None),
                ("x.cpp", f"-S.*{plus_plus}", None), ("x.S", "-E ", "-S")]
        for name, wanted, absent in rows:
            self.write("words", "")
            file = self.write(name, "")
            self.assertEqual(self.call("--cc", self.compiler, "-c", "-o", self.path("x.o"), file)[0], 0)
            words = self.read("words")
            self.assertRegex(words, wanted)
            self.assertTrue(absent is None or absent not in words, words)
        file = self.write("y.s", ASSEMBLY)
        self.assertEqual(self.call("--cc", "/nothing/gcc", "-c", "-o", self.path("y.o"), file), (0, "", []))
        self.assertEqual(self.call("-c", "-o", self.path("y.o"), file, file)[2][-1], "sfi-cc: error: -c with -o takes one source")
        self.assertEqual(self.call("-c", self.path("absent.s")), (1, "", [f"sfi-cc: {self.path('absent.s')} can't be read"]))

    @needs(GCC, CLANG)
    def test_headers_of_cpp(self):
        """Those of the compiler alone, without a C library."""
        names = ("stdint", "stddef", "stdarg", "limits", "float", "stdbool")
        text = "".join(f"#include <{name}.h>\n" for name in names) + "uint64_t most = UINT32_MAX;\n"
        for compiler in (GCC, CLANG):
            self.assertEqual(self.call("--cc", compiler, "-c", "-o", self.path("x.o"), self.write("x.cc", text)), (0, "", []))

    def test_hosted(self):
        """gcc warns of -fhosted where a file is of C++."""
        os.makedirs(self.path("library/include"))
        for name, is_asked in (("x.c", True), ("x.cc", False)):
            self.write("words", "")
            self.assertEqual(self.call("--cc", self.compiler, "--library", self.path("library"), "-c", "-o",
                                       self.path("x.o"), self.write(name, ""))[0], 0)
            self.assertEqual("-fhosted" in self.read("words"), is_asked, name)
            self.assertIn("-fbuiltin", self.read("words"))

    def test_side_by_side(self):
        """The first compiler ends when the second has begun; what they say is in the files' order."""
        compiler = self.write("pair", f'''#!/bin/sh
for file; do :; done
case $file in
*one.c) while [ ! -e {self.folder}/begun ]; do sleep 0.05; done ;;
*) touch {self.folder}/begun ;;
esac
echo $(basename $file) >&2
while [ "$1" != -o ]; do shift; done
cp {self.folder}/main.asm "$2"
''', 0o755)
        self.write("main.asm", ASSEMBLY.replace(".globl\tmain", ".weak main"))
        status, _, told = self.call("--cc", compiler, "-o", self.path("pair.elf"), self.write("one.c", ""), self.write("two.c", ""))
        self.assertEqual((status, told), (0, ["one.c", "two.c"]))

    def test_output(self):
        self.assertEqual(self.made("-o", self.path("new.hex")), (0, "", []))
        self.assertEqual(self.read("new.hex"), self.made()[1])
        place = self.path("nowhere/new.hex")
        self.assertEqual(self.made("-o", place),
                         (2, "", [f"sfi-cc: {place} can't be written: No such file or directory"]))

    def test_headers_of_images(self):
        """The format, and the size of the data region."""
        rows = [(["--format", "1"], b"SFI1", 16384), ([], b"SFIS", 16384), (["--stack", "100000"], b"SFIS", 131072),
                (["--data", "65536"], b"SFIS", 65536), (["--format", "words"], b"SFIW", 16384), (["--format", "2"], b"SFI2", 16384),
                (["--movable"], b"SFIS", 16384), (["--sandbox", "15"], b"SFIS", 16384)]
        for options, magic, size in rows:
            image = bytes.fromhex(self.made(*options)[1])
            self.assertEqual((image[:4], int.from_bytes(image[20:24], "little")), (magic, size))

    def test_format_by_place(self):
        """Words where single masks have no such place, as far as options say it; what shows when the size is known is refused."""
        for at, memory, magic in (("1000000:1800000", "16K", b"SFIW"), ("1000000:2000000", "16K", b"SFIS"), ("1000000:2000000", "16M", b"SFIW"),
                                  ("1000000:2000000", "32M", b"SFIW"), ("fffff000:2000000", "16K", b"SFIW"), ("5000:80000000", "16K", b"SFIS"),
                                  ("4000:80000000", "16K", b"SFIW"), ("1000000:8000", "16K", b"SFIS"), ("1000000:4000", "16K", b"SFIW")):
            with self.subTest(at, memory=memory):
                status, image, told = self.made("--at", at, "--memory", memory)
                self.assertEqual((status, told, bytes.fromhex(image)[:4]), (0, [], magic))
        self.assertEqual(self.made("--at", "4000:80000000"), (1, "", [
            "sfi-cc: the program: the code or the data lie in the zone at zero, the addresses below 0x5000 and the last 4096: give less --memory, or "
            "compile it with --format words"]))
        self.assertEqual(self.made("--format", "single", "--at", "1000000:1800000"), (1, "", [
            "sfi-cc: the program: the data lie at 0x1800000, which is more than one bit: compile it with --format words"]))
        self.assertEqual(self.made("-c", "-o", self.path("made.o")), (0, "", []))
        status, _, told = self.call(self.path("made.o"), "--at", "1000000:1800000")
        self.assertEqual((status, told[-2:]), (1, ["sfi-cc: without --format this program is of format words",
                                                   f"sfi-cc: {BINUTILS}ld failed, in status 1"]))

    def test_names(self):
        """The table at the image's end, as docs/IMAGE.md has it; a program of exports needs no main."""
        self.write("main.asm", "\t.text\n\t.globl\tadd\nadd:\n\tadd\ta0,a0,a1\n\tret\n\t.bss\n\t.globl\troom\nroom:\n\t.zero\t8\n")
        words = ["--export", "add,room", "--import", "log_it", "--gate", "log_it=2", "--api", "7"]
        for image_format in FORMATS:
            at = self.listed("--format", image_format, *words)
            entries = [struct.pack("<IB", at[name], len(name)) + name.encode() for name in ("add", "room", "log_it")]
            entries[2] += STACK
            numbers = struct.pack("<3I", 7, len(entries[0] + entries[1]), len(entries[2]))
            image = bytes.fromhex(self.made("--format", image_format, *words)[1])
            self.assertTrue(image.endswith(b"".join(entries) + numbers + b"SFIN"), image_format)
            self.assertIn(struct.pack("<2I", at["log_it"], 2), image)
            self.assertEqual(self.made("--format", image_format, "-o", self.path("as.image"), *words), (0, "", []))
            with open(self.path("as.image"), "rb") as file:
                self.assertEqual(file.read(), image)
        self.assertEqual(self.made("--export", "add", "--export", "room", *words[2:]), self.made(*words))
        self.assertRegex(" ".join(self.made("--export", "none")[2]), "undefined reference to `none'.*ld failed, in status 1$")
        self.assertRegex(" ".join(self.made()[2]), "undefined symbol `main'.*ld failed, in status 1$")

    def test_room(self):
        """A base above an object, as gcc has it: the last import says how far. Without names and gates there is no table."""
        text = "\t.text\n\t.globl\tmain\nmain:\n\tli\ta5,{base}\n\tadd\ta5,a5,sp\n\tlw\ta0,{offset}(a5)\n\tret\n"
        for offset, room in ((-100, 128), (-2048, 2304), (4, 0)):
            self.write("main.asm", text.format(base=-offset, offset=offset))
            claim = struct.pack("<IB", room, 5) + b".room" if room else b""
            for words, name, exports in ((["--export", "main"], b"\x04main", 9), (["--import", "it"], b"\x02it", 0), (["--gate", "it=3"], b"", 0)):
                image = bytes.fromhex(self.made(*words)[1])
                imports = len(STACK + claim) + (len(name) + 4 if name and not exports else 0)
                table = name + STACK + claim + struct.pack("<3I", 0, exports, imports) + b"SFIN" if name or room else b""
                self.assertEqual(image[len(image) - len(table):], table)
                self.assertEqual(b"SFIN" in image, bool(table))
            self.assertNotIn(b"SFIN", bytes.fromhex(self.made()[1]))

    def test_stack(self):
        """The claim says what the program was linked with, or what sfi-image is told."""
        rows = [([], [], 8192), (["--stack", "100"], [], 100), (["--stack", "100"], ["--stack", "3000"], 3000)]
        for words, of_image, count in rows:
            self.listed("--export", "main", *words)
            image = subprocess.run([SFI_IMAGE, "--raw", *of_image, self.path("listed.elf")], capture_output=True, check=True).stdout
            claim = struct.pack("<IB", count, 6) + b".stack"
            self.assertTrue(image.endswith(b"\x04main" + claim + struct.pack("<3I", 0, 9, len(claim)) + b"SFIN"))

    def test_marks(self):
        """What SFI_EXPORT and SFI_IMPORT become in assembly: names, also of an archive; a gate that nothing calls isn't there."""
        self.write("main.asm", "\t.globl\tadd\n\t.protected\tadd\nadd:\n\ttail\tprint\n\t.weak\tprint\n\t.protected\tprint\n"
                               "\t.weak\tidle\n\t.protected\tidle\n\t.protected\telsewhere\n")
        self.assertEqual(self.made("--export", "add", "--import", "print"), self.made())
        wanted = STACK + struct.pack("<3I", 0, 8, 10 + len(STACK)) + b"SFIN"
        at = self.listed()
        self.assertNotIn("idle", at)
        entries = struct.pack("<IB", at["add"], 3) + b"add" + struct.pack("<IB", at["print"], 5) + b"print"
        for image_format in FORMATS:
            image = bytes.fromhex(self.made("--format", image_format)[1])
            self.assertTrue(image.endswith(wanted))
        self.assertIn(entries, bytes.fromhex(self.made()[1]))
        self.assertIn(struct.pack("<2I", at["print"], 3), bytes.fromhex(self.made()[1]))
        self.assertIn(struct.pack("<2I", at["print"], 2), bytes.fromhex(self.made("--gate", "print=2")[1]))
        self.assertEqual(self.call("--cc", self.compiler, "-c", "-o", self.path("add.o"), self.file), (0, "", []))
        subprocess.run([f"{BINUTILS}ar", "rcs", self.path("libadd.a"), self.path("add.o")], check=True)
        program, main = self.path("program"), self.write("main.s", ASSEMBLY)
        for words in (["add.o"], ["libadd.a"], ["-ladd", f"-L{self.folder}"]):
            words = [self.path(word) if "." in word and word[0] != "-" else word for word in words]
            self.assertEqual(self.call("--program", program, *words, main, "-o", self.path("added.image"))[0], 0)
            with open(self.path("added.image"), "rb") as file:
                self.assertTrue(file.read().endswith(wanted))
        own = self.write("own.s", "\t.text\n\t.globl print\nprint:\tret\n")  # what defines the gate's name by itself
        self.assertEqual(self.call("--program", program, own, self.path("add.o"), "-o", self.path("own.image"))[0], 0)
        with open(self.path("own.image"), "rb") as file:
            self.assertTrue(file.read().endswith(STACK + struct.pack("<3I", 0, 8, len(STACK)) + b"SFIN"))

    def test_marks_refused(self):
        for text, told in (("\t.protected\t_Z3addii\n", 'asm2elf: main.asm:1: _Z3addii: what a host knows by its name wants extern "C"'),
                           ("\t.protected\ta.b\n", "asm2elf: main.asm:1: a.b: a name that a host knows has at most 255 letters, digits and _"),
                           ("\t.weak\tput\n\t.protected\tput\n\ttail\tput\n",
                            "sfi-cc: SFI_IMPORT: 'put' is the gate of service 1 already")):
            self.write("main.asm", text)
            self.assertEqual((self.made()[0], self.made()[2][0]), (1, told))

    def test_where(self):
        self.write("main.asm", '\t.file 1 "main.c"\n' + ASSEMBLY.replace("main:\n", "main:\n\t.loc 1 3 1\n"))
        found = self.listed()
        for address, told in ((found["main"], "main, main.c:3"), (found["exit_with"], "exit_with"),
                              (found["_sfi_start"] + 4, "_sfi_start"), (0, "in the zone at zero: a pointer is null or wrong"),
                              (0x100000, "neither the program's code nor its data")):
            self.assertEqual(self.made("--where", f"{address:x}", check="exit 9"), (0, f"{address:08x}: {told}\n", []))
        stack = "the stack has likely overflowed its room of"
        self.assertRegex(self.made("--where", "7ffffff8")[1], f"^7ffffff8: in the guard zone, 8 bytes below the data: {stack} ")

    def test_objects_and_archives(self):
        """An object is given in place of its source; a program gets of an archive what it calls."""
        self.write("main.asm", ASSEMBLY.replace("li\ta0,7\n\tret", "tail\tcallee"))
        callee = self.write("callee.s", "\t.globl callee\ncallee:\n\tli a0,9\n\tret\n")
        unused = self.write("unused.s", "\t.globl unused\nunused:\n\tcall nowhere\n\tret\n")
        objects = [self.path("callee.o"), self.path("unused.o")]
        for source, output in zip((callee, unused), objects):
            self.assertEqual(self.call("-c", "-o", output, source), (0, "", []))
        self.assertIn("callee", self.listed(objects[0]))
        subprocess.run([f"{BINUTILS}ar", "rcs", self.path("libmine.a"), *objects], check=True)
        for words in ((self.path("libmine.a"),), (f"-L{self.folder}", "-lmine"), ("-L", self.folder, "-l", "mine")):
            found = self.listed(*words)
            self.assertTrue("callee" in found and "unused" not in found)
        self.assertRegex(" ".join(self.made()[2]), "undefined reference to `callee'.*ld failed, in status 1$")
        self.assertIn("sixteen", self.listed(objects[0], "-Wl,--defsym=sixteen=16"))

    def test_options(self):
        self.made("-O1", "-I", "headers", "-DX=1", "-include", "other.c")
        words = self.read("words").split()
        self.assertIn("-ffixed-x31", words)
        self.assertIn("-O1 -I headers -DX=1 -include other.c", " ".join(words))
        self.assertEqual(words[-1], self.file)
        self.assertLess(words.index("-O2"), words.index("-O1"))
        self.assertLess({"-ffixed-x29", "-ffixed-x30"}, set(words))
        self.made("--format", "2")
        self.assertNotIn("-ffixed-x30", self.read("words").splitlines()[-1])
        for options, told in [(["--format", "3"], "argument --format: invalid choice: '3' (choose from '1', '2', 'words', 'single')"),
                              (["--gate", "a=0", "--gate", "a=1"], "argument --gate: 'a' is given twice"),
                              (["--gate", "a=99"], f"argument --gate: 'a=99' isn't NAME=SERVICE with a service from 0 to {max(GATES.values())}"),
                              (["--gate", "main=1"], "argument --gate: 'main' is the program's first function already"),
                              (["--gate", "put=3"], "argument --gate: 'put' is the gate of service 1 already"),
                              (["--export", "a", "--export", "a"], "argument --export: 'a' is given twice"),
                              (["--export", "a,b", "--export", "b"], "argument --export: 'b' is given twice"),
                              (["--export", "a b"], "argument --export: 'a b' is no name of at most 255 letters, digits and _"),
                              (["--export", ".room"], "argument --export: '.room' is no name of at most 255 letters, digits and _"),
                              (["--import", "a,"], "argument --import: '' is no name of at most 255 letters, digits and _"),
                              (["--import", "put"], "argument --import: 'put' is the gate of service 1 already"),
                              (["--where", "x"], "argument --where: 'x' is no address of 32 bits in hexadecimal digits"),
                              (["--data", "300"], "argument --memory/--data: '300' is no power of two from 256 to 1073741824"),
                              (["--stack"], "argument --stack: expected one argument")]:
            status, output, lines = self.call(self.file, *options)
            self.assertEqual((status, output, lines[-1]), (2, "", f"sfi-cc: error: {told}"))
        self.assertEqual(self.call("-O2")[2][-1], "sfi-cc: error: a FILE of C, C++ or assembly is wanted")


@needs(GCC)
class Libraries(Calls):
    """Libraries, named and by default, and what is said of them."""

    def setUp(self):
        super().setUp()
        self.program = self.write("program", "#!/bin/sh\ncat >/dev/null\n", 0o755)

    def made(self, text, *words, name="made.c"):
        return self.call("--program", self.program, *words, "-o", self.path("made.elf"), self.write(name, text))

    def functions(self):
        told = subprocess.run([f"{BINUTILS}nm", "--defined-only", self.path("made.elf")], capture_output=True, check=True, text=True).stdout
        return {line.split()[-1] for line in told.splitlines() if line.split()[1] in "TtWw"}

    def test_the_small_one_by_default(self):
        """A source that asks for its headers has it, with what is called alone, and so has an object; others stay freestanding."""
        hosted = "#include <stdio.h>\nint main(void) { putchar('a' + __STDC_HOSTED__); }\n"
        own = "int putchar(int it) { return it; }\nint hosted = 1 / !__STDC_HOSTED__;\n"
        for compiler in COMPILERS:
            self.assertEqual(self.made(hosted, "--cc", compiler, "-Wall", "-Werror"), (0, "", []))
            self.assertTrue({"putchar", "put"} <= self.functions())
            self.assertFalse({"printf", "malloc", "getchar", "puts"} & self.functions())
            objects = [self.path("hosted.o"), self.path("own.o")]
            for text, output in zip((hosted, own), objects):
                self.assertEqual(self.call("--cc", compiler, "-c", "-o", output, self.write("part.c", text)), (0, "", []))
            for files, is_there in ((objects[:1], True), (objects, False)):
                self.assertEqual(self.call("--cc", compiler, "-o", self.path("made.elf"), *files), (0, "", []))
                self.assertEqual("put" in self.functions(), is_there)
        self.assertEqual(self.made("#include <stdio.h>\nint main() { return puts(\"a\"); }\n", name="made.cc"), (0, "", []))
        self.assertEqual(self.made("#include <stdlib.h>\nint main(void) { return *(char *)malloc(9); }\n", "--heap", "160"), (0, "", []))

    def test_what_it_has_not(self):
        """The line that names the whole library, before that of the program that failed."""
        rows = [("#include <math.h>\n", "math.h"), ("#include <stdio.h>\n#include <time.h>\n", "time.h"), ("#include <none.h>\n", None), ("FILE *file;\n", None),
                ("#include <stdio.h>\nFILE *file;\n", "the small library was taken"), ("#include <stdio.h>\nint x = y;\n", None),
                ("#include <stdio.h>\nint none(void);\nint main(void) { puts(\"\"); return none(); }\n", "the small library was taken"),
                ("int none(void);\nint main(void) { return none(); }\n", None)]
        for compiler in COMPILERS:
            for text, told in rows:
                status, _, lines = self.made(text, "--cc", compiler)
                wanted = [f"sfi-cc: {told}: try --library newlib, a whole C library"] if told else []
                self.assertEqual((status, [line for line in lines[:-1] if line.startswith("sfi-cc: ")]), (1, wanted), text)

    def test_what_takes_long(self):
        """One line before a large library is converted; none where it is kept, or where it is small."""
        for name, count in (("large", 41), ("larger", 42), ("few", 40)):
            for number in range(count):
                self.write(f"{name}/f{number}.asm", f"\t.globl\t{name}{number}\n{name}{number}:\n\tret\n")
        words = ["-o", self.path("made.elf"), self.write("main.s", ASSEMBLY)]
        told = f"files of a library are converted for format single, which may take a minute, once: kept in {self.path('home')}/suygapid/library-"
        home = {**os.environ, "XDG_CACHE_HOME": self.path("home")}
        for names, wanted in ((["few"], []), (["large", "larger"], [f"sfi-cc: 41 {told}"]), (["larger", "large"], [])):
            libraries = [word for name in names for word in ("--library", self.path(name))]
            done = subprocess.run([SFI_CC, *libraries, *words], capture_output=True, check=False, text=True, env=home)
            self.assertEqual((done.returncode, [line[:-16] for line in done.stderr.splitlines()]), (0, wanted))

    def test_too_much_data(self):
        for image_format, size, told in (
                ("2", (1 << 20) + 100, "the objects have 1048688 bytes, 112 more than format 2 has room for (at most 1048576)"),
                ("2", (1 << 20) - 4096, "1044480 bytes of objects and 8192 of stack don't fit in 1048576, by 4112 of stack: "
                                        "format 2 has room for no more"),
                ("words", (1 << 30) + 100, "the objects have 1073741936 bytes, 112 more than format words has room for (at most 1073741824)")):
            self.assertEqual(self.made(f"char all[{size}];\nint main(void) {{ return all[(int)all & 255]; }}\n", "--format", image_format),
                             (1, "", [f"sfi-cc: made.elf: {told}"]))

    def test_too_much_code(self):
        for image_format, size in (("1", 1 << 16), ("2", 1 << 20)):
            status, output, told = self.made("\t.globl main\nmain:\n" + "\tcall main\n" * (size // 8), "--format", image_format, name="made.s")
            self.assertEqual((status, output), (1, ""))
            self.assertRegex(told[-1], rf"^sfi-cc: made.elf: the code has \d+ bytes, \d+ more than format {image_format} has room for \(at most {size}\)$")


@needs_program
class Programs(Calls):
    """Real compilers, and the program itself."""

    def runs(self, *words):
        status, image, told = self.call("--program", SFI, *words)
        self.assertEqual((status, told), (0, []))
        done = subprocess.run([SFI, "run"], input=image, stdout=subprocess.PIPE, check=True, text=True)
        return [word for word in done.stdout.split() if not word.startswith("steps=")]

    def names(self, *words):
        """The kinds and the names in an image's table, in order of the names, as `sfi dis` lists them."""
        status, image, told = self.call("--program", SFI, *words)
        self.assertEqual((status, told), (0, []))
        lines = subprocess.run([SFI, "dis"], input=image, stdout=subprocess.PIPE, check=True, text=True).stdout.splitlines()
        return sorted(f"{line.split()[0]} {line.split()[2]}" for line in lines if line.startswith(("export ", "import ")))

    def compare(self, rows, *words):
        file = self.write("hello.c", HELLO)
        for number, options in enumerate(rows):
            for image_format in formats_due(number, len(rows)):
                self.assertEqual(self.runs("--format", image_format, *words, *options, file), ["sandbox=0", "exit=105", "out=4869"])

    @needs(GCC)
    def test_gcc(self):
        self.compare(([], ["-O0", "-g"], ["-Os", "--stack", "65536"], ["-Os", "-msave-restore"]), "--cc", GCC)

    @needs(GCC)
    def test_code_on_the_stack(self):
        """By gcc's own warning, and by the converter where -w takes that away."""
        file = self.write("nested.c", "int apply(int (*f)(int)) { return f(1); }\n"
                                      "int main(void) { int k = 5; int add(int x) { return x + k; } return apply(add); }\n")
        for option, wanted in (("-O0", "error: trampoline"), ("-w", "code on the stack")):
            status, image, told = self.call("--cc", GCC, option, file)
            self.assertEqual((status, image), (1, ""))
            self.assertIn(wanted, "".join(told))

    @needs(GCC)
    def test_assembly_that_names_a_register_of_words(self):
        """What is told names the line of the source; in bundles these two are the program's."""
        inline = self.write("inline.c", 'int main(void) {\n    int it;\n    __asm__("li t4,42\\n\\tmv %0,t4" : "=r"(it) : : "t4");\n    return it;\n}\n')
        macros = self.write("macros.S", "#define KEPT x30\n/* two\n   lines */\n.globl main\nmain:\tli KEPT,42\nmv a0,KEPT\nret\n")
        plain = self.write("plain.s", ".globl main\nmain:\n\tli t5,42\n\tmv a0,t5\n\tret\n")
        for file, line, name, number in ((inline, 3, "t4", 29), (macros, 5, "t5", 30), (plain, 3, "t5", 30)):
            told = (f"asm2elf: {os.path.basename(file)}:{line}: {name} (x{number}) is the sandbox's own register in words: "
                    f"compile with -ffixed-x{number}; assembly that names it wants --format 2")
            self.assertEqual(self.call("--program", SFI, "--cc", GCC, file)[2], [told, "sfi-cc: asm2elf failed, in status 1"])
            for image_format in ("1", "2"):
                self.assertEqual(self.runs("--cc", GCC, "--format", image_format, file), ["sandbox=0", "exit=42", "out="])

    @needs(CLANG)
    def test_clang(self):
        self.compare(([], ["-O0", "-g"], ["-Os"], ["-Os", "-msave-restore"]), "--cc", CLANG)

    @needs(CLANG)
    def test_addresses_of_labels_by_clang(self):
        """A later function, into which that of the labels is inlined, speaks of them, too."""
        file = self.write("labels.c", "static short table[2];\nint run(short *at) {\n    static void *base = &&first;\n    if (!at) {\n"
                                      "        table[0] = &&first - &&first;\n        table[1] = &&last - &&first;\n        return 0;\n    }\n"
                                      "    goto *(base + *at++);\nfirst:\n    goto *(base + *at++);\nlast:\n    return 42;\n}\n"
                                      "int main(void) {\n    run(0);\n    short code[] = {table[0], table[1]};\n    return run(code);\n}\n")
        self.assertEqual(self.runs("--cc", CLANG, file), ["sandbox=0", "exit=42", "out="])

    @needs(GCC)
    def test_assembly_and_cpp(self):
        main = self.write("main.cc", '''extern "C" int twice(int number);
struct Shape { virtual int corners() const = 0; };
struct Square : Shape { int corners() const override { return 4; } };
int corners_of(const Shape &shape) { return shape.corners(); }
int main() { return twice(19) + corners_of(Square()); }
''')
        twice = self.write("twice.S", "#define TIMES 1\n.globl twice\ntwice: slli a0,a0,TIMES\nret\n")
        for compiler in COMPILERS:
            for level in ("-O0", "-O2"):
                self.assertEqual(self.runs("--cc", compiler, level, main, twice), ["sandbox=0", "exit=42", "out="])

    @needs(GCC)
    def test_room_is_listed(self):
        """gcc reaches a local array from above the function's frame."""
        file = self.write("array.c", "int seed;\nint f(void) {\n    volatile int numbers[8];\n    int sum = 0;\n    for (int at = 0; at < 8; at++) "
                                     "numbers[at] = seed + at;\n    for (int at = 0; at < 8; at++) sum += numbers[at];\n    return sum;\n}\n")
        for image_format in formats_due(0, 2):
            self.assertEqual(self.names("--cc", GCC, "--format", image_format, "--export", "f", file), ["export .f()i", "export f", "import .room", "import .stack"])

    @needs(GCC)
    def test_marked_in_the_source(self):
        """The same table by the marks of gates.h as by options."""
        body = "int print(int);\nextern int state[2];\nint add(int a, int b) { return print(a + b) + state[1]; }\nint state[2];\n"
        marked = body.replace("int print", "SFI_IMPORT int print").replace("int add", "SFI_EXPORT int add").replace("\nint state", "\nSFI_EXPORT int state")
        for compiler in COMPILERS:
            for name in ("plug.c", "plug.cc"):
                opened, closed = ('extern "C" {\n', "}\n") if name.endswith("cc") else ("", "")
                plain = self.write(name, f"{opened}{body}{closed}")
                listed = self.names("--cc", compiler, "--export", "add,state", "--import", "print", plain)
                self.assertEqual([it for it in listed if it != "import .room"], [
                    "export .add(ii)i", "export add", "export state", "import .print(i)i", "import .stack", "import print"])
                self.assertEqual(self.names("--cc", compiler, self.write(name, f'#include "gates.h"\n{opened}{marked}{closed}')), listed)

    @needs(GCC)
    def test_two_files_of_one_name(self):
        first = self.write("a/part.c", "int other(int);\nint main(void) { return other(40); }\n")
        second = self.write("b/part.c", "int other(int number) { return number + ADDED; }\n")
        self.assertEqual(self.runs("--cc", GCC, "-D", "ADDED=2", first, second), ["sandbox=0", "exit=42", "out="])
