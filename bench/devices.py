#!/usr/bin/env python3
"""Prints the tables of docs/DEVICE.md and of examples/device/README.md: what the checker costs on a device, the
longest verdicts of worst_verdict.txt, and by examples/device/umode/compare.py what programs and calls take beside U-mode.

    bench/devices.py LIBRARY [--verdicts] [--program SFI]   # libsfi_c.a for wasm64; --verdicts leaves out U-mode

It wants what examples/device wants. Instructions are QEMU's, of `virt`.
"""
import argparse
import os
import subprocess
import sys
import tempfile

TOP = os.path.dirname(os.path.dirname(os.path.abspath(__file__)))
sys.dont_write_bytecode = True
sys.path.insert(0, os.path.join(TOP, "tools"))
import worst_verdict
from suygapid.trials import images, measure

DEVICE = os.path.join(TOP, "examples", "device")


def run(*words, **how):
    return subprocess.run(words, check=True, stdout=subprocess.PIPE, text=True, **how).stdout


def host_bytes(folder, *words):
    """The bytes of code and constants of the loader of examples/device."""
    name = "checked" if words else "loader"
    run("make", "-s", "-C", DEVICE, f"OUT={folder}", *words)
    return int(run("riscv64-unknown-elf-size", f"{folder}/{name}").splitlines()[1].split()[0])


def print_checker(library, folder):
    """A row: bytes, and instructions for mixed code of each format; and the longest verdicts."""
    run(os.path.join(TOP, "device", "checker.sh"), library, folder)
    checker = os.path.join(folder, "checker.o")
    added = host_bytes(folder, f"CHECKER={checker}") - host_bytes(folder)
    judge = worst_verdict.Judge(checker, folder)
    verdicts = judge.verdicts([images.image("mixed", 1, 65536, format=it) for it in (1, 2, 3, 4)])
    print(f"| {added / 1000:.0f} KB |", " | ".join(f"{it / 1e6:.2f} million" for _, it in verdicts), "|")
    kept = worst_verdict.kept_lines()
    for kind in worst_verdict.KINDS:
        (_, instructions), = judge.verdicts([worst_verdict.image_of(kept[kind.name][0], kind, kind.bytes)])
        print(f"    {kind.name}: {instructions / 1e6:.1f} million, {instructions / kind.bytes:.0f} a byte", flush=True)


def main():
    parser = argparse.ArgumentParser()
    parser.add_argument("library", type=os.path.abspath)
    parser.add_argument("--verdicts", action="store_true")
    parser.add_argument("--program", default=measure.PROGRAM)
    options = parser.parse_args()
    with tempfile.TemporaryDirectory() as folder:
        print_checker(options.library, folder)
    if not options.verdicts:
        program = measure.program_at(options.program)
        compare = os.path.join(DEVICE, "umode", "compare.py")
        subprocess.run([compare, program], check=True, env={**os.environ, "SFI": program})


if __name__ == "__main__":
    main()
