#!/usr/bin/env python3
"""The instructions that the programs of examples/c execute natively on RV32 in QEMU: in each
format that its loader takes, and without a sandbox.

    bench/native.py [--program PATH]

Wants what examples/device and compiled.py want, and `make` in examples/c first. All of them are run
by the loader of examples/device, from the assembly and through the tools of compiled.py, whose
table of steps has the same numbers; the checker refuses the code without a sandbox. In each row the
loader's lines of all formats must be those of `sfi run`, steps included, and all answers equal.
"""
import argparse
import os
import subprocess
import sys
import tempfile

TOP = os.path.dirname(os.path.dirname(os.path.abspath(__file__)))
sys.dont_write_bytecode = True
sys.path.insert(0, os.path.join(TOP, "tools"))
from suygapid.trials import compiled, measure

FORMATS = {it: title for it, title in compiled.FORMATS.items() if it != compiled.SINGLE}  # that the loader takes
LOADER = os.path.join(TOP, "examples", "device", "run.sh")


def natively(path, words, program, *options):
    """The loader's line. A turn of a minute holds the longest run."""
    command = [LOADER, "--steps", "--turn", "60000000", "--input", words, *options]
    with open(path, "rb") as file:
        done = subprocess.run(command, stdin=file, stdout=subprocess.PIPE,
                              env={**os.environ, "SFI": program}, check=True)
    return done.stdout.decode()


def plain(assembly, words, program, folder):
    """The steps and the answer of the code without a sandbox."""
    code, data = compiled.linked(assembly, folder)
    digits = compiled.image(code, data).hex()
    path = measure.written(os.path.join(folder, "plain"), digits.encode())
    return compiled.answer(natively(path, words, program, "--unchecked"))


def sandboxed(assembly, words, image_format, program, folder):
    """The same of a built image."""
    path, _ = compiled.built(assembly, image_format, [], folder)
    run = [program, "run", "--rounds", "100", "--quantum", "1000000", "--input", words]
    wanted, _ = measure.run(run, path)
    found = natively(path, words, program)
    if found != wanted:
        raise SystemExit(f"bench: {assembly}, format {image_format}: sfi run says {wanted}, "
                         f"the processor {found}")
    return compiled.answer(found)


def row(name, program, folder):
    words = compiled.digits_of_case(name)
    assembly, in_words = (os.path.join(compiled.EXAMPLES, "build", part, name + ".asm")
                          for part in ("", compiled.WORDS))
    without, answer = plain(assembly, words, program, folder)
    cells = [f"{name}, {compiled.CASES[name]}", f"{without:,}"]
    for image_format in FORMATS:
        steps, found = sandboxed(in_words if image_format == compiled.WORDS else assembly, words,
                                 image_format, program, folder)
        if found != answer:
            raise SystemExit(f"bench: {name}: the answers differ")
        cells.append(f"{steps:,} ({steps / without:.2f})")
    return "| " + " | ".join(cells) + " |"


def main():
    parser = argparse.ArgumentParser()
    parser.add_argument("--program", default=measure.PROGRAM)
    program = measure.program_at(parser.parse_args().program)
    with tempfile.TemporaryDirectory() as folder:
        print("| program, input | without a sandbox | " + " | ".join(FORMATS.values()) + " |")
        print("|---|---" + "|---" * len(FORMATS) + "|")
        for name in compiled.CASES:
            print(row(name, program, folder), flush=True)


if __name__ == "__main__":
    main()
