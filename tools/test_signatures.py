"""Tests of the signatures that images tell of named functions: `tools/unit_tests.py tools test_signatures.py`. What is wanted
stands beside each declaration, written by hand."""
import os
import shutil
import struct
import subprocess

from testing import COMPILERS, SFI, SFI_CC, SFI_IMAGE, Folder, formats_due, needs, needs_a_compiler, needs_program

LEVELS = {"1": ("-Os",), "2": ("-O3",), "words": ("-O0", "-O2"), "single": ("-O1",)}  # by formats: neither changes anything of it
WAYS = [(level, it) for it in formats_due(0, 2) for level in LEVELS[it]]
TYPES = """
#include "gates.h"
#include <stdarg.h>
#include <stddef.h>
#include <stdint.h>
enum fruit { APPLE, PEAR };
enum sign { MINUS = -1, PLUS };
enum __attribute__((packed)) packed_c { C_MOST = 255 };
enum __attribute__((packed)) packed_y { Y_LEAST = -128 };
enum __attribute__((packed)) packed_k { K_LEAST = 256 };
enum __attribute__((packed)) packed_h { H_LEAST = -129 };
struct pair { int a, b; };
union either { int a; float b; };
typedef char letter;
typedef const letter *message;
typedef unsigned first;
typedef first second;
typedef second third;
typedef struct { char only; } tiny;
#define T(...) __typeof__(__VA_ARGS__)
"""
# Each a parameter and a result.
VALUES = {
    "signed char": "y", "int8_t": "y", "char": "c", "unsigned char": "c", "uint8_t": "c", "letter": "c", "enum packed_c": "c", "enum packed_y": "y",
    "short": "h", "int16_t": "h", "volatile short": "h", "unsigned short": "k", "uint16_t": "k", "enum packed_h": "h", "enum packed_k": "k", "_Bool": "t", "const _Bool": "t",
    "int": "i", "long": "i", "int32_t": "i", "enum sign": "i", "const int": "i", "unsigned": "u", "unsigned long": "u", "enum fruit": "u",
    "third": "u", "size_t": "u", "uintptr_t": "u", "wchar_t": "i", "long long": "l", "int64_t": "l", "unsigned long long": "m", "uint64_t": "m",
    "float": "f", "double": "d", "const volatile double": "d", "const char *": "s", "message": "s", "const char *const": "s",
    "char const *restrict": "s", "char *": "p", "const volatile char *": "p", "const signed char *": "p", "const unsigned char *": "p", "void *": "p", "const void *": "p",
    "int *restrict": "p", "const char **": "p", "struct pair *": "p", "union either *const": "p", "struct unknown *": "p", "int (*)(int)": "p", "void (**)(void)": "p", "int (*)[3]": "p",
}
PLUS_PLUS = {"bool": "t", "char16_t": "k", "enum sure": "t", "enum low": "h", "const int &": "p", "struct pair &": "p", "int &&": "p", "char32_t": "u", "enum small": "c", "enum large": "l", "const char *": "s", "wide *": "p"}
OF_PLUS_PLUS = ('#include "gates.h"\nstruct pair { int a, b; };\nenum small : unsigned char { ONE };\nenum large : long long { TWO };\nenum sure : bool { NO };\nenum low : short { THREE };\nstruct wide { virtual int f(); };\n'
                "#define T(...) __typeof__(__VA_ARGS__)\n")
# Functions of the name F.
FUNCTIONS = {
    "void F(void)": "()v",
    "unsigned F(SFI_BYTES(text))": "(b)u",
    "void F(SFI_BUFFER(room), int by)": "(wi)v",
    "int F(int before, SFI_BYTES(first), SFI_BUFFER(second))": "(ibw)i",
    "int F(SFI_BYTES(a), SFI_BYTES(b), SFI_BUFFER(c), SFI_BUFFER(d))": "(bbww)i",
    "unsigned F(const unsigned char *text, unsigned text_size)": "(pu)u",
    "unsigned F(sfi_bytes text, unsigned text_size)": "(pu)u",
    "unsigned F(sfi_bytes text, sfi_buffer_size size)": "(pu)u",
    "sfi_bytes F(sfi_bytes_size size)": "(u)p",
    "double F(long long a, float b, const char *c, double d)": "(lfsd)d",
    "int F(const char text[], int numbers[4], int call(int))": "(spp)i",
    "int F(int a, int b, int c, int d, int e, int f, int g, int h)": "(iiiiiiii)i",
    "long long F(long long a, double b, unsigned long long c, int d, int e)": "(ldmii)l",
    "__attribute__((noreturn)) void F(int code)": "(i)v",
    "__attribute__((const)) int F(int number)": "(i)i",
    "int F(va_list rest)": "(p)i",
    "_Bool F(unsigned char a, signed char b, unsigned short c, short d, char e)": "(cykhc)t",
    # Those without a signature.
    "int F(int a, int b, int c, int d, int e, int f, int g, int h, int i)": None,
    "int F(long long a, double b, unsigned long long c, long long d, int e)": None,
    "int F(SFI_BYTES(a), SFI_BYTES(b), SFI_BUFFER(c), SFI_BUFFER(d), int e)": None,
    "int F(const char *text, ...)": None,
    "int F(struct pair it)": None,
    "int F(int number, tiny it)": None,
    "struct pair F(void)": None,
    "union either F(int number)": None,
    "int F(long double it)": None,
    "long double F(int it)": None,
    "int F(float _Complex it)": None,
}


def entries(image):
    """The kinds, the names and the numbers of the table at an image's end, as docs/IMAGE.md has it."""
    exports, imports = struct.unpack_from("<2I", image, len(image) - 12)
    end = len(image) - 16
    at, found = end - exports - imports, []
    while at < end:
        number, size = struct.unpack_from("<IB", image, at)
        found.append(("export" if at < end - imports else "import", image[at + 5:at + 5 + size].decode(), number))
        at += 5 + size
    return found


def told(image, kind):
    """The signatures of exports or of imports, by their names."""
    names = [name for told_kind, name, _ in entries(image) if told_kind == kind]
    assert all(number == 0 for _, name, number in entries(image) if "(" in name)
    return {name[1:name.index("(")]: name[name.index("("):] for name in names if "(" in name}


def source(declarations, are_compiled=True):
    """Definitions of the exports e0, e1 and so on, and as many imports, and what is wanted of both."""
    exports = "".join(f"SFI_EXPORT {text.format(name=f'e{number}')} {{ __builtin_trap(); }}\n" for number, text in enumerate(declarations))
    imports = "".join(f"SFI_IMPORT {text.format(name=f'i{number}')};\n" for number, text in enumerate(declarations))
    taken = "".join(f"    seen = (void *)i{number};\n" for number in range(len(declarations)))
    return f"{exports}{imports}SFI_EXPORT void take(void) {{\n    void *volatile seen;\n{taken}    (void)seen;\n}}\n"


@needs_a_compiler
class Signatures(Folder):
    maxDiff = None

    def setUp(self):
        super().setUp()
        self.program = self.write("program", "#!/bin/sh\ncat >/dev/null\n", 0o755)

    def call(self, *words, says=""):
        done = subprocess.run([SFI_CC, "--program", self.program, *words], capture_output=True, check=False, text=True, cwd=self.folder)
        self.assertEqual((done.returncode, done.stderr), (0, says))

    def made(self, *words, says=""):
        """An image that has passed."""
        self.call(*words, "-o", self.path("made.image"), says=says)
        return (self.room / "made.image").read_bytes()

    def compare(self, path, signatures, *options):
        wanted = [(number, signature) for number, signature in enumerate(signatures) if signature]
        image = self.made(*options, path)
        self.assertEqual(told(image, "export"), {"take": "()v", **{f"e{number}": signature for number, signature in wanted}}, options)
        self.assertEqual(told(image, "import"), {f"i{number}": signature for number, signature in wanted}, options)

    def test_values(self):
        declarations = [f"T({text}) {{name}}(T({text}) it)" for text in VALUES]
        path = self.write("values.c", TYPES + source(declarations))
        for compiler in COMPILERS:
            for level, image_format in WAYS:
                self.compare(path, [f"({letter}){letter}" for letter in VALUES.values()], "--cc", compiler, level, "--format", image_format)

    def test_functions(self):
        path = self.write("functions.c", TYPES + source([text.replace("F(", "{name}(", 1) for text in FUNCTIONS]))
        for compiler in COMPILERS:
            for level, image_format in WAYS:
                self.compare(path, FUNCTIONS.values(), "--cc", compiler, level, "--format", image_format)

    def test_plus_plus(self):
        declarations = [f'T({text}) {{name}}(T({text}) it)' for text in PLUS_PLUS]
        path = self.write("values.cc", OF_PLUS_PLUS + 'extern "C" {\n' + source(declarations) + "}\n")
        for compiler in COMPILERS:
            for level, image_format in WAYS:
                self.compare(path, [f"({letter}){letter}" for letter in PLUS_PLUS.values()], "--cc", compiler, level, "-w", "--format", image_format)
            inside = self.write("inside.cc", '#include "gates.h"\nint twice(const char *it) { return *it; }\nnamespace n {\nextern "C" SFI_EXPORT int twice(int it) { return 2 * it; }\n}\n')
            self.assertEqual(told(self.made("--cc", compiler, inside), "export"), {"twice": "(i)i"})

    def test_without_prototypes(self):
        """A definition without parameters is told; one with names alone, whose types may be others when it is called, and a mere declaration aren't."""
        path = self.write("old.c", '#include "gates.h"\nSFI_IMPORT int ask();\nSFI_EXPORT int none() { return ask(); }\nSFI_EXPORT int named(a) char a; { return a; }\n')
        for compiler in COMPILERS:
            image = self.made("--cc", compiler, path)
            self.assertEqual((told(image, "export"), told(image, "import")), ({"none": "()i"}, {}))

    def test_names_by_options(self):
        """Of names without marks, those of the options; an object of the data has none."""
        path = self.write("plain.c", "int print(const char *);\nint state[2];\nint one(int it) { return print(\"a\") + it; }\nint two(int it) { return it; }\n")
        for compiler in COMPILERS:
            image = self.made("--cc", compiler, "--export", "one,state", "--import", "print", path)
            self.assertEqual((told(image, "export"), told(image, "import")), ({"one": "(i)i"}, {"print": "(s)i"}))
            self.assertEqual([name for _, name, _ in entries(image) if name[:1] != "."], ["one", "state", "print"])
            main = self.write("main.c", "int print(int);\nint main(void) { return print(1); }\n")
            self.assertNotIn(b"(", self.made("--cc", compiler, "--gate", "print=3", main)[-60:])

    def test_parts(self):
        """By way of an object, an archive, and a preprocessed source; the object's names are those of its own compilation."""
        path = self.write("part.c", '#include "gates.h"\nSFI_IMPORT unsigned log_it(const char *text);\nSFI_EXPORT unsigned part(SFI_BYTES(it)) { return it[it_size] + log_it("a"); }\n'
                                    "int more(int it) { return it; }\n")
        wanted = {"part": "(b)u"}, {"log_it": "(s)u"}
        for compiler in COMPILERS:
            self.call("--cc", compiler, "-c", path)
            self.call("--cc", compiler, "-c", "--export", "more", "-o", "more.o", path)
            subprocess.run(["riscv64-unknown-elf-ar", "rcs", self.path("libpart.a"), self.path("part.o")], check=True)
            with open(self.path("part.i"), "wb") as file:
                subprocess.run([compiler, "-E", "-I", os.path.join(os.path.dirname(SFI_CC), "..", "examples", "c"), path], stdout=file, check=True)
            for words in (["part.o"], ["libpart.a"], ["-L.", "-lpart", self.write("empty.s", "")], ["--cc", compiler, "-Wno-unused-command-line-argument", "part.i"], ["--export", "more", "part.o"]):
                image = self.made(*words)
                self.assertEqual((told(image, "export"), told(image, "import")), wanted, words)
            self.assertEqual(told(self.made("--export", "more", "more.o"), "export"), {"part": "(b)u", "more": "(i)i"})
            self.assertEqual(told(self.made("--no-signatures", "more.o"), "export"), {})

    def test_integers_of_other_widths(self):
        """What such a type holds isn't what its bytes do."""
        path = self.write("widths.c", '#include "gates.h"\nSFI_EXPORT int f(_BitInt(7) it) { return it; }\nSFI_EXPORT unsigned _BitInt(8) g(void) { return 0; }\nSFI_EXPORT void h(void) { }\n')
        if "clang" in COMPILERS:
            self.assertEqual(told(self.made("--cc", "clang", path), "export"), {"h": "()v"})

    def test_more_names_than_hosts_read(self):
        """Of 512 exports with their claims, 2 for each function, hosts take signatures, and of no more."""
        for definition, count, too_many in (("SFI_EXPORT void f{0}(void) {{ }}\n", 256, None), ("SFI_EXPORT void f{0}(void) {{ }}\n", 257, 514),
                                            ("SFI_EXPORT int f{0};\n", 600, None)):
            path = self.write("many.c", '#include "gates.h"\n' + "".join(definition.format(number) for number in range(count)))
            says = f"sfi-cc: {too_many} exports with their claims are more than 512, so hosts take no signature of them\n" if too_many else ""
            for output in ("many.image", "many.elf"):
                self.call("-O2", "-o", self.path(output), path, says=says)
            self.call("-O2", "--no-signatures", "-o", self.path("many.image"), path)

    def test_files_that_differ(self):
        """A call in one file that another declares in another way: the image tells none of the two."""
        first = self.write("first.c", '#include "gates.h"\nSFI_IMPORT int ask(int);\nint other(void);\nSFI_EXPORT int one(void) { return ask(1) + other(); }\n')
        second = self.write("second.c", '#include "gates.h"\nSFI_IMPORT int ask(const char *);\nint other(void) { return ask("a"); }\n')
        says = "sfi-cc: ask: files declare it as (i)i and as (s)i, so the image tells no signature of it\n"
        image = self.made(first, second, says=says)
        self.assertEqual((told(image, "export"), told(image, "import")), ({"one": "()i"}, {}))
        self.made("--no-signatures", first, second)

    def test_the_longest_names(self):
        for length, is_told in ((250, True), (251, True), (252, False)):
            name = "n" * length
            path = self.write("long.c", f'#include "gates.h"\nSFI_EXPORT void {name}(void) {{ }}\n')
            self.assertEqual(told(self.made(path), "export"), {name: "()v"} if is_told else {})

    def test_the_rest_is_the_same(self):
        """With signatures and without, all but these entries and what counts their bytes."""
        path = self.write("same.c", TYPES + source([text.replace("F(", "{name}(", 1) for text in FUNCTIONS]) + "SFI_EXPORT int state = 9;\n")
        for compiler in COMPILERS:
            for words in (["-O0"], ["-O2", "--movable"], ["-Os", "--format", "words", "--api", "7"], ["-g"]):
                with_them, without = (self.made("--cc", compiler, *words, *more, path) for more in ([], ["--no-signatures"]))
                self.assertEqual([entry for entry in entries(with_them) if "(" not in entry[1]], entries(without))
                self.assertEqual(with_them[:32], without[:32])
                gates, code = struct.unpack_from("<I", without, 28)[0], struct.unpack_from("<I", without, 12)[0]
                ends = [len(image) - 16 - sum(struct.unpack_from("<2I", image, len(image) - 12)) for image in (with_them, without)]
                self.assertGreater(ends[1], 36 + 8 * gates + code)
                self.assertEqual(with_them[36:ends[0]], without[36:ends[1]])

    def test_options_and_sources_of_all_kinds(self):
        """Options that write files write no other ones, what is only warned of isn't told twice, and code that wants its level has it."""
        text = '#include "gates.h"\n#ifndef __OPTIMIZE__\n#error level\n#endif\nstatic int idle;\nSFI_EXPORT int f(SFI_BYTES(it)) { return it[it_size - 1]; }\n'
        path = self.write("it.c", text)
        for compiler in COMPILERS:
            words = ["--cc", compiler, "-MMD", "-MF", "it.d", "-MT", "it", "-g3", "-Wall", "-pedantic-errors", "-std=c99", "-o", self.path("it.image"), path]
            done = subprocess.run([SFI_CC, "--program", self.program, *words], capture_output=True, check=True, text=True, cwd=self.folder)
            self.assertEqual(done.stderr.count("[-Wunused-variable]"), 1)
            self.assertEqual(told((self.room / "it.image").read_bytes(), "export"), {"f": "(b)i"})
            self.assertEqual(self.read("it.d").split()[:2], ["it:", path])
            local = self.write("local.c", '#include "gates.h"\nSFI_EXPORT int f(int it) { SFI_IMPORT int ask(int); return ask(it); }\n')
            self.assertEqual(told(self.made("--cc", compiler, local), "export"), {"f": "(i)i"})  # not of what isn't declared for the whole file

    def test_another_place(self):
        """A claim's number stays where the image is moved."""
        path = self.write("far.c", '#include "gates.h"\nSFI_IMPORT int ask(int);\nSFI_EXPORT int f(const char *it) { return ask(*it); }\n')
        self.call("--movable", "-o", "far.elf", path)
        for at in ("1800000:80000000", "3000000:4000000"):
            image = subprocess.run([SFI_IMAGE, "--raw", "--at", at, self.path("far.elf")], capture_output=True, check=True).stdout
            self.assertEqual((told(image, "export"), told(image, "import")), ({"f": "(s)i"}, {"ask": "(i)i"}))

    @needs_program
    def test_moves(self):
        path = self.write("far.c", '#include "gates.h"\nSFI_EXPORT int f(const char *it) { return *it; }\n')
        before = self.made("--movable", path)
        move = [os.path.join(os.path.dirname(SFI_CC), "sfi-move"), "--program", SFI, "--raw", "--at", "3000000:4000000"]
        after = subprocess.run(move, input=before, capture_output=True, check=True).stdout
        self.assertEqual(told(after, "export"), {"f": "(s)i"})
        self.assertEqual(entries(after)[0], ("export", "f", entries(before)[0][2] - 0x1800000 + 0x3000000))

    @needs("gcc")
    def test_natively(self):
        path = self.write("native.c", '#include "gates.h"\nSFI_EXPORT unsigned sum(SFI_BYTES(it), SFI_BUFFER(room)) { return room[room_size - 1] = it[it_size - 1]; }\n'
                                      'int main(void) { unsigned char room[1]; return sum((sfi_bytes)"abc", 3, room, 1) != 99 || *room != 99; }\n')
        words = ["-DNATIVE_GATES", "-Wall", "-Wextra", "-Werror", "-pedantic", "-I", os.path.join(os.path.dirname(SFI_CC), "..", "examples", "c")]
        for compiler, file in (("gcc", path), ("g++", self.write("native.cc", self.read("native.c").replace("SFI_EXPORT", 'extern "C" SFI_EXPORT')))):
            if shutil.which(compiler):
                subprocess.run([compiler, *words, "-o", self.path("native"), file], check=True)
                self.assertEqual(subprocess.run([self.path("native")], check=False).returncode, 0)
