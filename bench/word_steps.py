#!/usr/bin/env python3
"""What code in words gets by steps of data registers that only a trap makes right: the programs of examples/c in words, as they are,
and by the same passes where each step gets masks of its own, so that padded guard zones would do.

    bench/word_steps.py

Wants what bench/compiled.py wants, and SFI in the environment or ./sfi. A row has the accesses of the program's code, those with an
offset, the steps (`addi d, d, k` before an access on d) and the largest k; then bytes and steps of a run as they are and with masks,
and in the second format, each as a ratio to the same assembly without a sandbox. The last row has sums, the largest, and means.
"""
import os
import subprocess
import sys
import tempfile

TOP = os.path.dirname(os.path.dirname(os.path.abspath(__file__)))
sys.dont_write_bytecode = True
sys.path.insert(0, os.path.join(TOP, "tools"))
from suygapid.trials import compiled, measure, word_rules

# sfi-cc and asm2elf whose passes find no step that needs no masks.
CC = """
import sys
from suygapid.elf import tools
tools.ASM2ELF = [sys.executable, sys.argv.pop(1)]
from suygapid.commands.cc import main
sys.exit(main())
"""
ASM2ELF = """
import sys
from suygapid.passes import typed
typed.is_free_step = lambda piece, following: False
from suygapid.commands.asm2elf import main
sys.exit(main())
"""
WAYS = {"as they are": ("words", False), "with masks": ("words", True), "second format": ("2", False)}


def image_of(name, way, folder):
    """The bytes of a program's image. With masks the runtime is made anew, too."""
    image_format, is_masked = WAYS[way]
    assembly = os.path.join(compiled.EXAMPLES, "build", *["words"] * (image_format == "words"), f"{name}.asm")
    command, more = [compiled.SFI_CC], {}
    if is_masked:
        asm2elf = measure.written(os.path.join(folder, "asm2elf.py"), ASM2ELF.encode())
        command = [sys.executable, "-c", CC, asm2elf]
        more = {"PYTHONPATH": os.path.join(TOP, "tools"), "XDG_CACHE_HOME": folder}
    made = subprocess.run([*command, "--format", image_format, assembly], stdout=subprocess.PIPE, check=True,
                          env={**os.environ, **more})
    return bytes.fromhex(made.stdout.decode())


def steps_of(interpreter, image, words, folder):
    path = measure.written(os.path.join(folder, "image"), image.hex().encode())
    line = measure.run([interpreter, "once", "100", "1000000", words], path)[0].splitlines()[0]
    return compiled.answer(line)


def counts(image):
    """The accesses of an image in words, those with an offset, and the numbers of its steps."""
    at, size = 8 + 28 + 8 * int.from_bytes(image[28:32], "little"), int.from_bytes(image[12:16], "little")
    code, accesses, offsets, steps, before = image[at:at + size], 0, 0, [], word_rules.NONE
    for place in range(0, compiled.code_size(image), 4):
        for _, it in word_rules.word_read(code, place)[0]:
            if it.op in word_rules.WIDTHS:
                accesses += 1
                offsets += it.number != 0
                if before.rd in word_rules.DATA_REGISTERS and word_rules.steps(before.rd, before) and word_rules.uses(before.rd, it):
                    steps.append(before.number)
            before = it
    return accesses, offsets, steps


def measured(name, interpreter, folder):
    words = compiled.digits_of_case(name)
    plain, _, wanted = compiled.without_sandbox(os.path.join(compiled.EXAMPLES, "build", f"{name}.asm"), words, interpreter, folder)
    row, ratios = None, []
    for way in WAYS:
        image = image_of(name, way, folder)
        found = counts(image) if way != "second format" else None
        row = row or found
        if way == "with masks" and found[2]:
            raise SystemExit(f"word_steps.py: {name}: {len(found[2])} steps are left without masks")
        steps, answer = steps_of(interpreter, image, words, folder)
        if answer != wanted:
            raise SystemExit(f"word_steps.py: {name}, {way}: the answers differ")
        ratios.append((compiled.code_size(image) / plain.size, steps / plain.steps))
    return row, ratios


def main():
    print("| program | accesses | with an offset | steps | the largest |", *(f"bytes, steps {it} |" for it in WAYS))
    all_rows = []
    with tempfile.TemporaryDirectory() as folder:
        interpreter = measure.compiled("interpreter.c", os.path.join(folder, "interpreter"), "-DRULES")
        for name in compiled.CASES:
            (accesses, offsets, steps), ratios = measured(name, interpreter, folder)
            all_rows.append((accesses, offsets, len(steps), max(map(abs, steps), default=0), ratios))
            print(f"| {name} | {accesses} | {offsets} | {len(steps)} | {all_rows[-1][3]} |",
                  *(f"{size:.3f}, {run:.3f} |" for size, run in ratios), flush=True)
    sums = [sum(row[at] for row in all_rows) for at in range(3)]
    means = [[compiled.mean([row[4][way][of] for row in all_rows]) for of in range(2)] for way in range(len(WAYS))]
    print(f"| all | {sums[0]} | {sums[1]} | {sums[2]} | {max(row[3] for row in all_rows)} |",
          *(f"{size:.3f}, {run:.3f} |" for size, run in means))


if __name__ == "__main__":
    main()
