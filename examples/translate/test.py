#!/usr/bin/env python3
"""Translates images to C, and compares the text with what another maker makes of the listing, and what the C programs print
with what `sfi run` does, traps and steps included: the examples in each format, straight code, and random accepted images, in
turns of several lengths, for a host and as whole programs, by gcc and by clang; and a turn of each in WebAssembly, in node. Half of them are compiled
each time, by turns.

    examples/translate/test.py [--program SFI] [--images N] [--seed SEED]
"""
import os
import random
import shutil
import subprocess
import sys
import tempfile

HERE = os.path.dirname(os.path.abspath(__file__))
TOP = os.path.dirname(os.path.dirname(HERE))
sys.dont_write_bytecode = True
sys.path.insert(0, os.path.join(TOP, "tools"))
import lines
import testing
import whole_translation
from suygapid.image.layout import MAGICS, Part, spelled
from suygapid.trials import corpus, translations

INCLUDE = os.path.join(TOP, "crates/sfi_translate/include")
COMPILERS = (("gcc", "-O2"), ("clang", "-O1"))
TURNS = (("2", "2000"), ("50", "13"), ("1", "64"), ("1", "128"))
REFUSED = [(3, "--rounds"), (3, "--rounds", "0"), (3, "--rounds", "10001"), (3, "--quantum", "1000001"), (3, "--quantum", "x"),
           (3, "--other", "1"), (2, "--input", "486"), (2, "--input", "4g")]
INCLUDE_LINE = '#include "sfi_native.h"\n'


def straight():
    """128 steps with no jump, from where the steps that are left are looked at."""
    code = b"\x01\x00" * 128 + b"\x02\x90" * 128  # c.nop, c.ebreak
    return spelled(MAGICS[1], [Part(0x01000000, code, 0x01800000, 256, 0x01000000)])


def written(folder, text):
    """The path of a file with the text."""
    path = os.path.join(folder, "image.c")
    with open(path, "w", encoding="ascii") as file:
        file.write(text)
    return path


def compiled(compiler, folder, *sources):
    """The path of the C program of these sources."""
    program = os.path.join(folder, "image")
    subprocess.run([*compiler, "-std=c99", "-Wall", "-Wextra", "-Werror", *sources, "-o", program], check=True)
    return program


def programs(sfi, compiler, folder, digits):
    """The C programs of an image: by the console beside the translation, and the whole one."""
    text = printed([sfi, "translate"], digits.encode()).decode()
    path = written(folder, text)
    yield compiled(compiler, folder, "-I", INCLUDE, f'-DSFI_TEXT="{path}"', os.path.join(HERE, "sfi_console.c"))
    yield compiled(compiler, folder, written(folder, printed([sfi, "translate", "--whole"], digits.encode()).decode()))


def printed(words, text=b""):
    return subprocess.run(words, input=text, stdout=subprocess.PIPE).stdout


def differing(sfi, compiler, folder, image):
    """Of each program and each kind of turns the options, what `sfi run` prints, and what the C program does."""
    digits = image.hex()
    for program in programs(sfi, compiler, folder, digits):
        for rounds, quantum in TURNS:
            options = ["--rounds", rounds, "--quantum", quantum, "--input", translations.INPUT]
            yield options, printed([sfi, "run", *options], digits.encode()), printed([program, *options])


WASM = ("clang", "--target=wasm32", "-O2", "-mbulk-memory", "-nostdlib", "-Wl,--no-entry")
STRING_H = "void *memcpy(void *, const void *, __SIZE_TYPE__);\n"  # which clang does by itself there
RUN_WASM = """
const bytes = require("fs").readFileSync(process.argv[1]);
WebAssembly.instantiate(bytes).then(({ instance: { exports: it } }) =>
    console.log(it.turn(Number(process.argv[2])), it.place() >>> 0, it.left() >>> 0));
"""
CALL = 1
STATES = {0: "ready", 2: "trap=Load at={:08x}", 3: "trap=Store at={:08x}", 4: "trap=Break at={:08x}", 5: "trap=Fetch at={:08x}"}


def in_wasm(sfi, folder, image, steps):
    """The state and steps after a turn of the first sandbox in WebAssembly, and those of `sfi run`; None where the turn has a call."""
    path = written(folder, printed([sfi, "translate"], image.hex().encode()).decode())
    with open(os.path.join(folder, "string.h"), "w", encoding="ascii") as file:
        file.write(STRING_H)
    module = os.path.join(folder, "image.wasm")
    options = ["-I", folder, "-I", INCLUDE, f'-DSFI_TEXT="{path}"', "-w", os.path.join(HERE, "wasm.c"), "-o", module]
    subprocess.run([*WASM, *options], check=True)
    how, at, left = map(int, printed(["node", "-e", RUN_WASM, module, str(steps)]).split())
    line = printed([sfi, "run", "--quantum", str(steps)], image.hex().encode()).decode().splitlines()[0]
    found = f"sandbox=0 {STATES.get(how, '').format(at)} steps={steps - left} out="
    return None if how == CALL else (line, found)


def try_wasm(sfi, folder, images):
    """What is said of each image, and whether it is the same."""
    for image in images:
        for steps in (50, 3000):
            lines_of = in_wasm(sfi, folder, image, steps)
            if lines_of:
                yield f"in WebAssembly: {image.hex()[:80]}..: {lines_of}", lines_of[0] == lines_of[1]


def has_wasm():
    return all(map(shutil.which, ("clang", "wasm-ld", "node")))


def statuses(program):
    """Options that `sfi run` refuses: with what status, and with what the C program does."""
    for status, *options in REFUSED:
        yield options, status, subprocess.run([program, *options], stdout=subprocess.DEVNULL, stderr=subprocess.DEVNULL).returncode


def is_as_listed(sfi, image):
    """Whether the translation is what `sfi dis` lists, as another maker translates it."""
    digits = image.hex()
    return printed([sfi, "translate"], digits.encode()).decode() == INCLUDE_LINE + lines.translation(sfi, digits)


def try_images(sfi, compilers, folder, images):
    """What each image's programs print, each image by the next compiler, and whether it is the same."""
    for number, image in enumerate(images if compilers else []):
        compiler = compilers[number % len(compilers)]
        for options, wanted, found in differing(sfi, compiler, folder, image):
            yield (f"image {number}, {' '.join(compiler + tuple(options))}: {image.hex()[:80]}..\n"
                   f"  wanted {wanted[:200]}\n  found  {found[:200]}"), wanted == found


def main():
    given = translations.options(__doc__)
    pick = random.Random(given.seed)
    skipped = 0
    tried = [("the front of whole programs is the header and the console", whole_translation.is_made())]
    images = [straight()] + corpus.examples(given.program) + [corpus.small_accepted(pick) for _ in range(given.images)]
    compilers = [it for it in COMPILERS if shutil.which(it[0])]
    for name, *_ in set(COMPILERS) - set(compilers):
        print(f"skipped: the translations by {name}: {name} isn't there")
        skipped += 1
    tried += [(f"image {number} as its listing says: {image.hex()[:80]}..", is_as_listed(given.program, image))
              for number, image in enumerate(images)]
    with tempfile.TemporaryDirectory() as folder:
        tried += try_images(given.program, compilers, folder, testing.by_turns(images, -(-len(images) // 2)))
        if has_wasm():
            tried += try_wasm(given.program, folder, images[:1] + images[-given.images:])
        else:
            print("skipped: translations in WebAssembly: clang, wasm-ld or node isn't there")
            skipped += 1
        for program in programs(given.program, compilers[0], folder, images[0].hex()) if compilers else []:
            tried += [(f"the options {options}: status {found}, not {wanted}", wanted == found) for options, wanted, found in statuses(program)]
    return translations.ended(tried, skipped)


if __name__ == "__main__":
    sys.exit(main())
