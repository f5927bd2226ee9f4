#!/usr/bin/env python3
"""How fast translated images are: the programs of examples/c and four kernels (kernels.c), by `sfi translate` and gcc
-O2, beside the same C by gcc -O2 alone, and by clang, wasm2c and gcc -O2.

    bench/translated.py [--program PATH] [--rounds N] [--instructions] [--interpreted] [--native] [--peers] [NAME ..]

It wants sfi-cc's tools, and for wasm2c clang, wasm-ld and wabt. A program runs again and again over an input that is built in (repeat.c); it ends where the checksums differ. Processor seconds
of the native program, each the least of N alternated runs, and of the others the ratios to it; then the text's bytes
for an instruction. With --instructions, in place of seconds the x86 instructions that callgrind counts in a twentieth of the
work, which other work on the machine doesn't change. With --interpreted, so of the same images by `sfi run`, which takes long. With --native, so by
their native code. With --peers, so of the
kernels by qemu-riscv32, by node (less its start), and by wabt's wasm-interp (of a hundredth of the work), each where it is.
"""
import argparse
import os
import re
import shutil
import subprocess
import sys
import tempfile

TOP = os.path.dirname(os.path.dirname(os.path.abspath(__file__)))
sys.dont_write_bytecode = True
sys.path.insert(0, os.path.join(TOP, "tools"))
import libraries
from suygapid.trials import compiled, measure
from suygapid.trials.compiled import CASES, EXAMPLES, SFI_CC, mean

TIMES = {"crc32": 16000, "sha256": 8000, "sort": 5000, "wordcount": 20000, "stack": 1200, "arithmetic": 1000, "json": 30000, "base64": 12000,
         "lz": 4000, "hash": 5000, "matrix": 250, "regex": 4500, "sha": 30000, "sort_kernel": 250, "matrix_kernel": 1500, "sieve": 900}
KERNELS = {"sha": "sha", "sort_kernel": "sort", "matrix_kernel": "matrix", "sieve": "sieve"}
FORMATS = ("2", "words")
NATIVE_TURNS = ["10000", "1000000"]
TURNS = ["--rounds", NATIVE_TURNS[0], "--quantum", NATIVE_TURNS[1]]
INCLUDE = os.path.join(TOP, "crates/sfi_translate/include")
WASM = ["--target=wasm32", "-O2", "-mbulk-memory", "-nostdlib", "-DRUN_ALONE", "-Dmain=run", "-Wl,--no-entry,--export=run"]
# What clang has no instruction for, of the C library's functions that the programs call.
WASM_LIBRARY = """
int memcmp(const void *left, const void *right, unsigned long count) {
    const unsigned char *one = left, *other = right;
    for (; count; count--, one++, other++)
        if (*one != *other)
            return *one - *other;
    return 0;
}
"""
FEWER = 20  # times the work is divided by where instructions are counted
WASM_RUN = """
#include <stdio.h>
#include "kernel.h"
int main(void) {
    Z_kernel_instance_t instance;
    wasm_rt_init();
    Z_kernel_init_module();
    Z_kernel_instantiate(&instance);
    printf("%u\\n", Z_kernelZ_run(&instance));
    return 0;
}
"""
RISCV_GCC = "riscv64-unknown-elf-gcc"
QEMU = "qemu-riscv32"
# A kernel as a process of Linux on RV32: `write` is call 64, `exit` 93.
QEMU_RUN = """
unsigned run(void);
static void call(long number, long first, long second, long third) {
    register long a0 __asm__("a0") = first, a1 __asm__("a1") = second, a2 __asm__("a2") = third;
    register long a7 __asm__("a7") = number;
    __asm__ volatile("ecall" : "+r"(a0) : "r"(a1), "r"(a2), "r"(a7) : "memory");
}
void _start(void) {
    char text[10];
    int at = sizeof text;
    unsigned number = run();
    do
        text[--at] = '0' + number % 10;
    while (number /= 10);
    call(64, 1, (long)(text + at), sizeof text - at);
    call(93, 0, 0, 0);
}
"""


def call(*words, **more):
    return subprocess.run(words, check=True, stdout=subprocess.PIPE, **more).stdout


def sources(name, folder, divisor=1):
    """The options and files of a program."""
    times = [f"-DTIMES={TIMES[name] // divisor}"]
    if name in KERNELS:
        return [*times, f"-DKERNEL={KERNELS[name]}", os.path.join(measure.BENCH, "kernels.c")]
    given = bytes.fromhex(compiled.digits_of_case(name))
    listed = measure.written(os.path.join(folder, "input.inc"), ",".join(map(str, given + b"\0")).encode())
    renamed = ["-Dget=given", "-Dput=taken", "-I", EXAMPLES]
    return [*times, *renamed, f'-DINPUT="{listed}"', os.path.join(folder, "program.c"), os.path.join(measure.BENCH, "repeat.c")]


def native(folder, options):
    path = os.path.join(folder, "native")
    call("gcc", "-O2", "-DNATIVE", *options, "-o", path)
    return [path]


def by_wasm2c(folder, options):
    """What wasm2c makes of a program."""
    wasm, path = os.path.join(folder, "kernel.wasm"), os.path.join(folder, "by_wasm2c")
    extra = measure.written(os.path.join(folder, "library.c"), WASM_LIBRARY.encode())
    call("clang", *WASM, *options, extra, "-o", wasm)
    call("wasm2c", wasm, "-n", "kernel", "-o", os.path.join(folder, "kernel.c"))
    run = measure.written(os.path.join(folder, "run.c"), WASM_RUN.encode())
    library = "/usr/share/wabt/wasm2c"
    call("gcc", "-O2", "-I", library, run, os.path.join(folder, "kernel.c"), os.path.join(library, "wasm-rt-impl.c"), "-lm", "-o", path)
    return [path]


def by_node(folder):
    """The words that run a kernel's WebAssembly in node."""
    load = "WebAssembly.instantiate(require('fs').readFileSync(process.argv[1])).then(it => console.log(it.instance.exports.run() >>> 0))"
    return ["node", "-e", load, os.path.join(folder, "kernel.wasm")]


def wasm_interp_seconds(folder, name):
    """The seconds that wasm-interp takes for a hundredth of a kernel's work, times a hundred."""
    wasm = os.path.join(folder, "hundredth.wasm")
    call("clang", *WASM, *sources(name, folder, 100), "-o", wasm)
    return 100 * measure.run(["wasm-interp", wasm, "--run-all-exports"], os.devnull)[1]


def by_qemu(folder, options):
    """The words that run a kernel's code of RV32IMC, without a sandbox, in QEMU."""
    path, run = os.path.join(folder, "riscv"), measure.written(os.path.join(folder, "start.c"), QEMU_RUN.encode())
    machine = ["-march=rv32imc", "-mabi=ilp32", "-mno-relax", "-O2", "-ffreestanding"]
    call(RISCV_GCC, *machine, "-nostdlib", "-static", "-DRUN_ALONE", *options, run, "-lgcc", "-o", path)
    return [QEMU, path]


def image_in(folder, image_format):
    return os.path.join(folder, f"{image_format}.hex")


def translated(program, image_format, folder, options):
    """The words that run a translated program, and its translation."""
    image = image_in(folder, image_format)
    call(SFI_CC, "--program", program, "--format", image_format, *options, "-o", image)
    digits = measure.contents(image)
    text = call(program, "translate", "--whole", input=digits)
    lines = call(program, "translate", input=digits)
    source, path = measure.written(os.path.join(folder, "image.c"), text), os.path.join(folder, f"translated.{image_format}")
    call("gcc", "-O2", source, "-o", path)
    return [path, *TURNS], lines


def native_console(folder):
    """The path of the console that runs native code."""
    archive, _ = libraries.make_native()
    included = [f"-I{os.path.join(TOP, 'crates', it, 'include')}" for it in ("sfi_run", "sfi_c")]
    path = os.path.join(folder, "native_console")
    call("gcc", "-O2", *included, os.path.join(TOP, "examples/run/console.c"), archive, "-o", path)
    return path


def by_native_code(console, digits, folder, name):
    """The words that run an image by native code, but for the rounds and so on."""
    return [console, measure.written(os.path.join(folder, f"{name}.image"), bytes.fromhex(digits.decode()))]


def answer_of(output):
    """The checksum that a program prints, or exits with."""
    return re.search(r"(?:exit=)?(\d+)", output.split(" ", 1)[-1]).group(1)


def peers(folder, options):
    """By name, the peers that are there and what runs a kernel in them."""
    found = {}
    if shutil.which(RISCV_GCC) and shutil.which(QEMU):
        found["qemu-riscv32"] = by_qemu(folder, options), os.devnull
    if shutil.which("node") and os.path.exists(os.path.join(folder, "kernel.wasm")):
        found["node"] = by_node(folder), os.devnull
    return found


def measured(program, name, given, console, folder):
    """The native program's seconds, and by way the ratio to it; the lines of each format."""
    if name not in KERNELS:
        source = measure.contents(os.path.join(EXAMPLES, name + ".c"))
        measure.written(os.path.join(folder, "program.c"), source.replace(b"int main(void)", b"int program(void)"))
    options = sources(name, folder, FEWER if given.instructions else 1)
    ways, texts = {"native": (native(folder, options), os.devnull)}, {}
    for image_format in FORMATS:
        words, texts[image_format] = translated(program, image_format, folder, options)
        ways[image_format] = words, os.devnull
        if console:
            digits = measure.contents(image_in(folder, image_format))
            ways[f"native {image_format}"] = [*by_native_code(console, digits, folder, image_format), *NATIVE_TURNS], os.devnull
    if shutil.which("wasm2c") and shutil.which("clang"):
        ways["wasm2c"] = by_wasm2c(folder, options), os.devnull
    if name in KERNELS and given.peers:
        ways |= peers(folder, options)
    if given.interpreted:
        ways |= {f"run {it}": ([program, "run", *TURNS], image_in(folder, it)) for it in FORMATS}
    answers = {way: answer_of(measure.run(*words)[0]) for way, words in ways.items()}
    if len(set(answers.values())) != 1 or "0" in answers.values():  # 0 as of a program that puts nothing
        raise SystemExit(f"bench: {name}: the checksums differ, or say nothing: {answers}")
    least = {way: measure.instructions(*it) for way, it in ways.items()} if given.instructions else measure.leasts(ways, given.rounds)
    seconds = least.pop("native")
    if "node" in least:
        least["node"] -= measure.leasts({"start": (["node", "-e", ""], os.devnull)}, given.rounds)["start"]
    if name in KERNELS and given.peers and shutil.which("wasm-interp") and shutil.which("clang"):
        least["wasm-interp"] = wasm_interp_seconds(folder, name)
    return seconds, {way: it / seconds for way, it in least.items()}, texts


def print_means(title, rows):
    ways = [way for way in rows[0] if all(way in row for row in rows)]
    print(f"| {title} | | " + " | ".join(f"{way}: {mean([row[way] for row in rows]):.2f}" for way in ways) + " |", flush=True)


def print_size(texts):
    """The text's bytes for an instruction."""
    instructions = sum(len(re.findall(rb"^[A-Z_]+\([0-9a-f]{8},[24][,)]", text, re.MULTILINE)) for text in texts)
    print(f"{sum(map(len, texts)) / instructions:.1f} bytes of text for each of {instructions:,} instructions")


def main():
    parser = argparse.ArgumentParser(description=__doc__, formatter_class=argparse.RawDescriptionHelpFormatter)
    parser.add_argument("names", nargs="*", default=[*CASES, *KERNELS])
    parser.add_argument("--program", default=measure.PROGRAM)
    parser.add_argument("--rounds", type=int, default=3)
    parser.add_argument("--instructions", action="store_true")
    parser.add_argument("--interpreted", action="store_true")
    parser.add_argument("--native", action="store_true")
    parser.add_argument("--peers", action="store_true")
    given = parser.parse_args()
    if given.instructions and (given.peers or given.interpreted):
        parser.error("--instructions counts those of translations and of wasm2c alone")
    program = measure.program_at(given.program)
    rows, texts = {}, []
    with tempfile.TemporaryDirectory() as folder:
        console = native_console(folder) if given.native else None
        for name in given.names:
            os.mkdir(place := os.path.join(folder, name))
            seconds, rows[name], found = measured(program, name, given, console, place)
            texts += found.values()
            print(f"| {name} | {seconds:.3f} | " + " | ".join(f"{way}: {it:.2f}" for way, it in rows[name].items()) + " |", flush=True)
    for title, names in (("mean of programs", CASES), ("without arithmetic", set(CASES) - {"arithmetic"}), ("mean of kernels", KERNELS)):
        if kept := [row for name, row in rows.items() if name in names]:
            print_means(title, kept)
    print_size(texts)


if __name__ == "__main__":
    main()
