#!/usr/bin/env python3
"""How fast `sfi check` is and how much memory it takes, on an image's text and on a stream of its bytes.

    bench/checks.py [--program PATH] [--rounds N] [--checker FILE]

Makes an image of 16 sandboxes with 64 KiB of accepted code each, of each kind of images.py. It prints megabytes (10^6) of image a
second, by the medians of N alternated runs, and x86 instructions for a bundle. Beside `check`, and `check --raw` in all formats,
stand one linear pass over the same text (pass.c), and checker.c (FILE is another checker in C, which takes the same words) on the same
bytes, in both its ways and the first two formats. Then it prints the peak of resident memory over larger and larger images.
"""
import argparse
import os
import sys
import tempfile

TOP = os.path.dirname(os.path.dirname(os.path.abspath(__file__)))
sys.dont_write_bytecode = True
sys.path.insert(0, os.path.join(TOP, "tools"))
from suygapid.trials import images, measure


def commands_of(program, folder, checker):
    """By name, a command's words and which file it reads: raw, the bytes of an image, or text."""
    commands = {
        "`check`": ([program, "check"], "text"),
        "`check --report`": ([program, "check", "--report"], "text"),
        "`check --raw`": ([program, "check", "--raw"], "raw"),
        "the same, second format": ([program, "check", "--raw"], "second"),
        "the same, third format": ([program, "check", "--raw"], "third"),
        "linear pass": ([measure.compiled("pass.c", os.path.join(folder, "pass"))], "text"),
    }
    for name, built in measure.checkers(checker, folder).items():
        commands[name] = ([built, os.path.join(folder, "raw")], "raw")
        commands[name + ", second format"] = ([built, os.path.join(folder, "second")], "second")
    return {name: (words, os.path.join(folder, form)) for name, (words, form) in commands.items()}


def write_image(folder, *what):
    """Writes the two files of an image, and says how many bytes it has."""
    data = images.image(*what)
    measure.written(os.path.join(folder, "raw"), data)
    measure.written(os.path.join(folder, "text"), images.as_text(data))
    return len(data)


def write_formats(folder, kind, sandboxes):
    """Writes the image, and one of the same kind in each of the other formats; says how many bytes each has."""
    measure.written(os.path.join(folder, "second"), images.image(kind, sandboxes, format=2))
    measure.written(os.path.join(folder, "third"), images.image(kind, sandboxes, format=3))
    return write_image(folder, kind, sandboxes)


def expect_verdicts(commands):
    for name, command in commands.items():
        printed, _ = measure.run(*command)
        if name != "linear pass" and printed != "accepted sandboxes=16 bundles=65536\n":
            raise SystemExit(f"bench: {name}: {printed}")


def print_speeds(commands, folder, rounds):
    print("| image |", " | ".join(commands), "|")
    for kind in images.KINDS:
        write_formats(folder, kind, 8)
        half = {name: measure.instructions(*command) for name, command in commands.items()}
        size = write_formats(folder, kind, 16)
        expect_verdicts(commands)
        times = measure.medians(commands, rounds)
        cells = [kind]
        for name, command in commands.items():
            per_bundle = (measure.instructions(*command) - half[name]) / (8 * 65536 / 16)
            cells.append(f"{size / times[name] / 1e6:.0f}, {per_bundle:.0f}")
        print("|", " | ".join(cells), "|", flush=True)


def print_peaks(commands, folder):
    commands = {name: commands[name] for name in ("`check`", "`check --report`", "`check --raw`")}
    commands["`check` of bytes"] = (commands["`check`"][0], commands["`check --raw`"][1])
    print("| bytes of image | bytes of text |", " | ".join(commands), "|")
    for shape in images.SIZES:
        size = write_image(folder, "pairs", *shape)
        peaks = [measure.peak(*command) for command in commands.values()]
        text_size = os.path.getsize(os.path.join(folder, "text"))
        print("|", " | ".join(f"{n:,}" for n in [size, text_size] + peaks), "|", flush=True)


def main():
    parser = argparse.ArgumentParser()
    parser.add_argument("--program", default=measure.PROGRAM)
    parser.add_argument("--rounds", type=int, default=15)
    parser.add_argument("--checker", default="checker.c")
    options = parser.parse_args()
    with tempfile.TemporaryDirectory() as folder:
        commands = commands_of(measure.program_at(options.program), folder, options.checker)
        print_speeds(commands, folder, options.rounds)
        print_peaks(commands, folder)


if __name__ == "__main__":
    main()
