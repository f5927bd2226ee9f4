#!/usr/bin/env python3
"""The price of a sandbox to programs that people have: those of examples/c/programs.py with newlib, beside the same C
without a sandbox.

    bench/real_programs.py [--program PATH] [--format N ..] [--sources FOLDER] [--builds] [NAME ..]

--builds has the seconds of builds in the place of steps, of processors and on the clock, without results that sfi-cc kept. Without a sandbox, GNU's assembler and linker make the program of the compiler's assembly and of newlib's, and
interpreter.c runs it, as in compiled.py. In brackets are ratios, and the last row has their geometric means. The answers
must be equal.
"""
import argparse
import glob
import os
import resource
import subprocess
import sys
import tempfile
import time
from concurrent.futures import ThreadPoolExecutor
from typing import NamedTuple

TOP = os.path.dirname(os.path.dirname(os.path.abspath(__file__)))
sys.dont_write_bytecode = True
sys.path.insert(0, os.path.join(TOP, "tools"))
from suygapid.cc.compilers import GCC, compiled as compiled_to
from suygapid.commands.options import size as size_of
from suygapid.elf.runtime import OVERRIDDEN
from suygapid.kept import kept, root
from suygapid.library.newlib import folder_of
from suygapid.passes.typed import USUAL
from suygapid.trials import compiled, measure, programs
from suygapid.trials.compiled import DATA_SIZE, RUNTIME, SFI_CC, TOOLS, Count, answer, image, mean, power_above, section
from testing import FORMATS

PRICED = ("lua", "bzip2", "zlib", "cjson")
BUILT = ("lua", "mujs", "zstd", "sqlite")
AS = ["-march=rv32imc", "-mabi=ilp32"]
KEPT = ["ra", "sp", *(f"s{number}" for number in range(12))]  # by setjmp: the library's leaves out the sandbox's own registers
SETJMP = "".join(f"{name}:\n" + "".join(f" {word} {register}, {4 * number}(a0)\n" for number, register in enumerate(KEPT)) + end
                 for name, word, end in (("setjmp", "sw", " li a0, 0\n ret\n"), ("longjmp", "lw", " seqz a0, a1\n add a0, a0, a1\n ret\n")))
START = ".globl setjmp, longjmp\n" + SETJMP + compiled.START.replace("start:  call main\n", "start:  addi a1, sp, 4\n sw a1, 0(sp)\n mv a1, sp\n li a0, 1\n call _start\n")

HEAP = """.globl __heap_more
__heap_more:
 lui a1, %hi(given)
 lw a2, %lo(given)(a1)
 lui a4, %hi(heap + {size})
 addi a4, a4, %lo(heap + {size})
 add a3, a2, a0
 li a0, 0
 bgtu a3, a4, none
 sw a3, %lo(given)(a1)
 mv a0, a2
none: ret
.data
given: .4byte heap
.bss
.balign 16
heap: .zero {size}
"""


def assembled(path, output):
    subprocess.run([TOOLS + "as", *AS, "-o", output, path], check=True)
    return output


def library():
    """The path of newlib as an archive without masks, which is kept."""
    folder = folder_of(GCC)

    def make(room):
        paths = sorted(glob.glob(os.path.join(folder, "*.asm")))
        with ThreadPoolExecutor(os.cpu_count()) as pool:
            objects = list(pool.map(lambda path: assembled(path, os.path.join(room, os.path.basename(path) + ".o")), [*paths, RUNTIME]))
        subprocess.run([TOOLS + "objcopy", *(f"--weaken-symbol={name}" for name in OVERRIDDEN), objects[-1]], check=True)
        subprocess.run([TOOLS + "ar", "rcs", os.path.join(room, "library.a"), *objects], check=True)

    return folder, os.path.join(kept("plain", [folder], make), "library.a")


def heap_of(program):
    """The bytes that malloc may give: as many as the program says, or those of the data that it says in a sandbox."""
    return size_of(program.memory) if program.memory else program.heap


def objects_of(name, tree, folder, include):
    """The objects of a program's files and of its heap."""
    options = ["-fhosted", "-fbuiltin", "-isystem", include, *programs.options_of(name, tree, folder)]

    def made(job):
        number, path = job
        place = os.path.join(folder, f"plain{number}")
        return assembled(compiled_to(GCC, options, path, place, ())[0], place + ".o")

    heap = os.path.join(folder, "heap.s")
    measure.written(heap, HEAP.format(size=heap_of(programs.PROGRAMS[name])).encode())
    with ThreadPoolExecutor(os.cpu_count()) as pool:
        return [*pool.map(made, enumerate(programs.files_of(name, tree))), assembled(heap, heap + ".o")]


def without_sandbox(name, tree, folder):
    """The image of a program that the interpreter alone runs, and the bytes of its code."""
    library_folder, archive = library()
    script, start, linked = (os.path.join(folder, file) for file in ("script", "start.s", "plain.elf"))
    measure.written(script, compiled.SCRIPT.encode())
    measure.written(start, START.encode())
    words = [TOOLS + "gcc", *AS, "-nostdlib", "-Wl,--gc-sections", "-T", script, "-o", linked, start]
    objects = objects_of(name, tree, folder, os.path.join(library_folder, "include"))
    subprocess.run([*words, *objects, archive], check=True)
    code = section(linked, ".text", folder)
    data_size = max(DATA_SIZE, power_above(heap_of(programs.PROGRAMS[name]) + DATA_SIZE))
    return image(code, section(linked, ".data", folder), data_size), len(code)


def measured(name, options, interpreter, folder):
    """A row for each input: its name, the count without a sandbox, and those of each format."""
    tree = programs.tree_of(programs.PROGRAMS[name], options, folder)
    if tree is None:
        raise SystemExit(f"bench: the sources of {programs.PROGRAMS[name].package} aren't there")
    plain, size = without_sandbox(name, tree, folder)
    path = measure.written(os.path.join(folder, "plain.image"), plain)
    made = {image_format: programs.built(name, tree, folder, image_format, options) for image_format in options.format}
    for given in programs.PROGRAMS[name].inputs.split():
        content = programs.given_to(given, tree)
        steps, wanted = answer(measure.run([interpreter, "once", *programs.RUN[2::2], content.hex()], path)[0].strip())
        row = [f"{name}, {given}", Count(size, steps)]
        for elf, content_of in made.values():
            image_path = measure.written(os.path.join(folder, "image"), content_of)
            steps, found = answer(measure.run([interpreter, "once", *programs.RUN[2::2], content.hex()], image_path)[0].strip())
            if found != wanted:
                raise SystemExit(f"bench: {name}, {given}: the answers differ: {wanted[:300]} {found[:300]}")
            row.append(Count(programs.code_size(elf), steps))
        yield row


class Seconds(NamedTuple):
    """What some work takes of processors, by the processes that it starts, and on the clock."""
    processor: float
    clock: float

    def __str__(self):
        return f"{self.processor:.1f} | {self.clock:.1f}"

    def over(self, other):
        return f"{self.processor / other.processor:.2f} | {self.clock / other.clock:.2f}"


def seconds_of(work):
    before, begun = resource.getrusage(resource.RUSAGE_CHILDREN), time.monotonic()
    work()
    after, ended = resource.getrusage(resource.RUSAGE_CHILDREN), time.monotonic()
    return Seconds(after.ru_utime + after.ru_stime - before.ru_utime - before.ru_stime, ended - begun)


def make_libraries(image_format, folder):
    """Has sfi-cc make and keep what it makes once: the library, and the functions of floating point."""
    file = measure.written(os.path.join(folder, "floating.c"), b"#include <stdio.h>\nint main(int n) { return printf(\"%f\", n * 0.3); }\n")
    output = os.path.join(folder, "floating.elf")
    subprocess.run([SFI_CC, "--format", image_format, "--library", "newlib", "-o", output, file], check=True)


def built(name, options, folder):
    """A row: the seconds of gcc, as and ld for a program, and those of sfi-cc in each format."""
    tree = programs.tree_of(programs.PROGRAMS[name], options, folder)
    if tree is None:
        raise SystemExit(f"bench: the sources of {programs.PROGRAMS[name].package} aren't there")
    plain = seconds_of(lambda: without_sandbox(name, tree, folder))
    row = [name, str(plain)]
    for image_format in options.format:
        words = [*programs.command_of(name, tree, folder, image_format, os.path.join(folder, "linked.elf")), "--no-cache"]
        seconds = seconds_of(lambda: subprocess.run(words, check=True))
        row += [str(seconds), seconds.over(plain)]
    return row


def builds(options, folder):
    library()
    for image_format in options.format:
        make_libraries(image_format, folder)
    print("| program | gcc, as, ld, s | clock | " + " | ".join(f"sfi-cc, {it}, s | clock | ratio | clock" for it in options.format) + " |")
    print("|---" * (3 + 4 * len(options.format)) + "|")
    for name in options.names or BUILT:
        os.mkdir(os.path.join(folder, name))
        print("| " + " | ".join(built(name, options, os.path.join(folder, name))) + " |", flush=True)


def table(rows, formats):
    print("| program, input | steps without | " + " | ".join(formats) + " | bytes without | " + " | ".join(formats) + " |")
    print("|---" * (3 + 2 * len(formats)) + "|")
    for name, plain, *counts in rows:
        cells = [f"{getattr(plain, field):,}" + "".join(f" | {getattr(it, field) / getattr(plain, field):.3f}" for it in counts)
                 for field in ("steps", "size")]
        print(f"| {name} | " + " | ".join(cells) + " |")


def main():
    parser = argparse.ArgumentParser()
    parser.add_argument("names", nargs="*")
    parser.add_argument("--builds", action="store_true")
    parser.add_argument("--program", default=measure.PROGRAM)
    parser.add_argument("--format", action="append", choices=FORMATS)
    parser.add_argument("--sources", default=os.path.join(root(), "sources"))
    options, options_given = parser.parse_known_args()
    options.given, options.fetch, options.format = options_given, False, options.format or [USUAL]
    with tempfile.TemporaryDirectory() as folder:
        if options.builds:
            return builds(options, folder)
        options.names = options.names or PRICED
        interpreter = measure.compiled("interpreter.c", os.path.join(folder, "interpreter"))
        rows = []
        for name in options.names:
            os.mkdir(os.path.join(folder, name))
            rows += measured(name, options, interpreter, os.path.join(folder, name))
    table(rows, options.format)
    for number, image_format in enumerate(options.format):
        by_program = [mean([row[2 + number].steps / row[1].steps for row in rows if row[0].startswith(name + ",")])
                      for name in options.names]
        print(f"geometric mean of programs, steps, format {image_format}: {mean(by_program):.3f}")
    return None


if __name__ == "__main__":
    main()
