#!/usr/bin/env python3
"""How fast the C library checks images that are in memory already, many times in one process: the scan, without the start of a
program, reading, and text.

    bench/scans.py [--rounds N] [--checker FILE] [--module FILE]

Prints, for each kind of images.py and each format, x86 instructions for a bundle, branches for a bundle that callgrind's model guesses
wrong, and megabytes (10^6) of image a second, by the medians of N alternated runs: of the library, and beside it of checker.c on the
same bytes, in the first two formats, by switches and by its class table (FILE is another checker in C, which takes the same words). With
--module, so is the WebAssembly module in node, by its speed alone. Then it prints, for each of these, its instructions by those of the
library, and the library's speed by its speed: above 1 the library is ahead.
The library is built by (cd crates/sfi_c && rt lib), the module by tools/build_library.py.
"""
import argparse
import os
import re
import subprocess
import sys
import tempfile

TOP = os.path.dirname(os.path.dirname(os.path.abspath(__file__)))
sys.dont_write_bytecode = True
sys.path.insert(0, os.path.join(TOP, "tools"))
from suygapid.trials import images, measure

LIBRARY = os.path.join(TOP, "crates", "sfi_c")
REPEATS = 10
GROUPS = 5  # scan.c and checker.c print the best of this number of groups
BUNDLES = 65536
FORMATS = list(images.MAGICS)


def node_with(path, image):
    """The words that run the module in node, which wants an option for memories of 64 bits as long as they are an experiment."""
    option = "--experimental-wasm-memory64"
    known = subprocess.run(["node", option, "-e", "0"], stderr=subprocess.DEVNULL, check=False).returncode == 0
    return ["node", *[option] * known, os.path.join(measure.BENCH, "scan.mjs"), path, image]


def commands_of(folder, checker, module):
    """By name and format, the words of a command but for the repeats."""
    options = ["-I" + os.path.join(LIBRARY, "include")]
    library = os.path.join(LIBRARY, "out", "libsfi_c.a")
    scan = os.path.join(folder, "scan")
    subprocess.run(["gcc", "-O2", *options, os.path.join(measure.BENCH, "scan.c"), library, "-o", scan], check=True)
    programs = {"library": [scan]}
    for name, path in measure.checkers(checker, folder).items():
        programs[name] = [path, "--bench"]
    images_at = {n: os.path.join(folder, str(n)) for n in FORMATS}
    commands = {(name, n): [*words, path] for n, path in images_at.items() for name, words in programs.items() if n < 3 or name == "library"}
    return commands | {("node", n): node_with(module, path) for n, path in images_at.items() if module}


def image_of(kind, n):
    """Of 16 sandboxes, or with single masks, for which an image hasn't the places, of one with as much code."""
    return images.image(kind, *[1, 16 * BUNDLES] * (n == images.SINGLE), format=n)


def speed(words):
    return float(re.search(r"([\d.]+) MB/s", measure.run([*words, str(REPEATS)], os.devnull)[0]).group(1))


def counts_of(words):
    """For a bundle, the instructions and the branches guessed wrong, where valgrind can count them."""
    if words[0] == "node":
        return None
    twice, once = (measure.instructions_and_misses([*words, repeats], os.devnull) for repeats in ("2", "1"))
    return [(more - less) / GROUPS / BUNDLES for more, less in zip(twice, once)]


def median_speeds(commands, rounds):
    speeds = {key: [] for key in commands}
    for _ in range(rounds):
        for key, words in commands.items():
            speeds[key].append(speed(words))
    return {key: sorted(taken)[rounds // 2] for key, taken in speeds.items()}


def rows_of(kind, commands, rounds):
    """For each command, its cell, and its ratios to the library of the same format."""
    counts = {key: counts_of(words) for key, words in commands.items()}
    speeds = median_speeds(commands, rounds)
    cells, ratios = [kind], [kind]
    for (name, n), speed_here in speeds.items():
        count = counts[name, n]
        cells.append(("{:.0f}, {:.1f}, ".format(*count) if count else "") + f"{speed_here:.0f} MB/s")
        if name != "library":
            fewer = f"{count[0] / counts['library', n][0]:.2f}, " if count else ""
            ratios.append(fewer + f"{speeds['library', n] / speed_here:.2f}")
    return cells, ratios


def main():
    parser = argparse.ArgumentParser()
    parser.add_argument("--rounds", type=int, default=9)
    parser.add_argument("--checker", default="checker.c")
    parser.add_argument("--module")
    options = parser.parse_args()
    all_ratios = []
    with tempfile.TemporaryDirectory() as folder:
        commands = commands_of(folder, options.checker, options.module)
        print("| image |", " | ".join(f"{name}, format {n}" for name, n in commands), "|")
        for kind in images.KINDS:
            for n in FORMATS:
                measure.written(os.path.join(folder, str(n)), image_of(kind, n))
            cells, ratios = rows_of(kind, commands, options.rounds)
            all_ratios.append(ratios)
            print("|", " | ".join(cells), "|", flush=True)
    print("| ratio |", " | ".join(f"{name}, format {n}" for name, n in commands if name != "library"), "|")
    for ratios in all_ratios:
        print("|", " | ".join(ratios), "|")


if __name__ == "__main__":
    main()
