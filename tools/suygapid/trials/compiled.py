"""The programs of examples/c as compiled: with a sandbox by tools/sfi-cc, and without one by the GNU tools, for bench/interpreter.c, with
which bench/compiled.py compares them. Other scripts run them elsewhere."""
import math
import os
import re
import struct
import subprocess
from dataclasses import dataclass

from suygapid import TOP
from suygapid.image.layout import MAGICS, Part, spelled
from suygapid.passes.typed import SINGLE, WORDS
from suygapid.trials import measure

EXAMPLES = os.path.join(TOP, "examples", "c")
SFI_CC, SFI_IMAGE = (os.path.join(TOP, "tools", name) for name in ("sfi-cc", "sfi-image"))
RUNTIME = os.path.join(TOP, "tools", "suygapid", "runtime", "runtime.asm")
TOOLS = "riscv64-unknown-elf-"
CASES = {"crc32": "prose", "sha256": "prose", "sort": "sort-numbers", "wordcount": "prose", "stack": "stack-primes",
         "arithmetic": "empty", "json": "json-tree", "base64": "prose", "lz": "prose", "hash": "prose",
         "matrix": "matrix-bytes", "regex": "regex-class"}
FORMATS = {1: "first format", 2: "second format", WORDS: "in words", SINGLE: "single masks"}
RUN = ("100", "1000000")  # rounds and steps
CODE, DATA, DATA_SIZE = 0x1000000, 0x1800000, 1 << 20
BUNDLE = 16
FILL = b"\x02\x90"  # c.ebreak

# The gates' stubs without masks, in the order of their services, and the start.
START = """
        .section .stubs,"ax"
        .globl exit_with, put, get, start
exit_with: ecall
        ret
        .balign 16
put:    ecall
        ret
        .balign 16
get:    ecall
        ret
        .balign 16
start:  call main
        call exit_with
"""
GATES = [(CODE + BUNDLE * service, service) for service in range(3)]

SCRIPT = """
ENTRY(start)
SECTIONS {
    .text 0x1000000 : { KEEP(*(.stubs)) *(.text .text.*) }
    .data 0x1800000 : { *(.rodata .rodata.* .srodata .srodata.*) *(.data .data.* .sdata .sdata.*) }
    .bss : { *(.bss .bss.* .sbss .sbss.* COMMON) }
}
"""


def section(program, name, folder):
    """The bytes of a section of a linked program."""
    path = os.path.join(folder, "section")
    subprocess.run([TOOLS + "objcopy", "-O", "binary", "-j", name, program, path], check=True)
    return measure.contents(path)


def linked(assembly, folder):
    """The code and the data of a program as the GNU tools make them."""
    program, script, start = (os.path.join(folder, file) for file in ["program", "script", "start.s"])
    measure.written(script, SCRIPT.encode())
    measure.written(start, START.encode())
    words = ["-march=rv32imc", "-mabi=ilp32", "-nostdlib", "-x", "assembler", "-Wl,--gc-sections"]
    subprocess.run([TOOLS + "gcc", *words, "-T", script, "-o", program, start, assembly, RUNTIME], check=True)
    return section(program, ".text", folder), section(program, ".data", folder)


def power_above(length):
    return max(256, 1 << (length - 1).bit_length())


def image(code, data, data_size=None):
    """An image that the interpreter runs, and that the checker would refuse: nothing in it is
    masked. It has DATA_SIZE bytes of data unless told."""
    size = power_above(len(code))
    padded = code + b"\0" * (len(code) % 2)
    filled = padded + FILL * ((size - len(padded)) // 2)
    return spelled(MAGICS[1], [Part(CODE, filled, DATA, data_size or DATA_SIZE, CODE + BUNDLE * len(GATES), dict(GATES), data)])


@dataclass
class Count:
    """The bytes of a program's code and the steps of its run."""
    size: int
    steps: int


def answer(line):
    """What a run's line says of the steps, and of all else."""
    return int(re.search(r"steps=(\d+)", line).group(1)), re.sub(r" steps=\d+", "", line)


def without_sandbox(assembly, words, interpreter, folder):
    """What the program takes without a sandbox, what the rules of each format make of that, and
    the answer."""
    code, data = linked(assembly, folder)
    path = measure.written(os.path.join(folder, "plain"), image(code, data))
    output, _ = measure.run([interpreter, "once", *RUN, words], path)
    line, *rules = output.splitlines()
    steps, found = answer(line)
    numbers = [re.search(r"masks=(\d+) bytes=(\d+)", rule).groups() for rule in rules]
    least = [Count(int(size), steps + int(masks)) for masks, size in numbers]
    return Count(len(code), steps), least, found


def built(assembly, image_format, options, folder, sandboxes=1):
    """The path of an image of this number of sandboxes, each with the program, and its digits."""
    tool = [SFI_CC, "--format", str(image_format)]
    made = os.path.join(folder, "program.o")
    subprocess.run([*tool, *options, "-c", "-o", made, assembly], check=True)
    linked = [os.path.join(folder, f"sandbox{number}.elf") for number in range(sandboxes)]
    for number, path in enumerate(linked):
        subprocess.run([*tool, "--sandbox", str(number), "-o", path, made], check=True)
    digits = subprocess.run([SFI_IMAGE, *linked], stdout=subprocess.PIPE, check=True).stdout
    return measure.written(os.path.join(folder, "image"), digits), digits.decode()


def code_size(content):
    """The bytes of an image's code without the fill at its end."""
    size, gates = struct.unpack_from("<I", content, 12)[0], struct.unpack_from("<I", content, 28)[0]
    start = 8 + 28 + 8 * gates
    code = content[start:start + size]
    while code.endswith(FILL):
        code = code[:-len(FILL)]
    return len(code)


def input_of(name):
    """The input of the C examples of that name."""
    return subprocess.run([os.path.join(EXAMPLES, "inputs.py"), name], check=True, capture_output=True).stdout


def digits_of_case(name):
    """The input of a program, in hexadecimal digits."""
    return input_of(CASES[name]).hex()


def mean(ratios):
    return math.exp(sum(map(math.log, ratios)) / len(ratios))
