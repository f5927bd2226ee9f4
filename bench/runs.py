#!/usr/bin/env python3
"""How fast `sfi run` is, beside a plain interpreter in C (interpreter.c) that decodes at each step, or once.

    bench/runs.py [--program PATH] [--rounds N] [--least | --compiled]

Builds compute.s, memory.s and mixed.s by `sfi build`, each as one sandbox and as 16, and runs them in turns of 100000 steps;
it ends where the programs' lines differ. It prints million steps a second, by the medians of N alternated runs of 96 million
steps, and x86 instructions for a step. Then it prints what `sfi run` takes to load larger and larger images, for one step a
sandbox: million x86 instructions, seconds, and the peak of resident memory.

With --least it prints nanoseconds a step in their place: the least time of N runs of 48 million steps less the least of N
of 9.6 million. So the start of a process drops out, and most of what other work on the machine adds.

With --compiled it runs the programs of examples/c in each format to their end, 16 sandboxes of each (`make` in examples/c
first; it wants what compiled.py wants), and prints, of the first format, of the second and in words, x86 instructions and
nanoseconds for a step of `sfi run` and of the interpreter that decodes once: less what a run of one step a sandbox takes,
each the least of N runs. Then the ratio of their times, and that of a whole run by `sfi run` to one in the second format.
The last row has the geometric means. It ends where lines differ, whole or after 9 turns of 977 steps.
"""
import argparse
import os
import re
import sys
import tempfile
from dataclasses import dataclass

TOP = os.path.dirname(os.path.dirname(os.path.abspath(__file__)))
sys.dont_write_bytecode = True
sys.path.insert(0, os.path.join(TOP, "tools"))
from suygapid.trials import compiled, images, measure

NAMES = ["compute", "memory", "mixed"]
SANDBOXES = [1, 16]
QUANTUM = 100_000
TIMED = 96_000_000
COUNTED = 1_600_000
FEW, MANY = 9_600_000, 48_000_000
CUT = "9", "977"
FORMATS = [it for it in compiled.FORMATS if it != compiled.SINGLE]  # of which an image has room for 16 sandboxes


def commands(program, interpreter, steps, sandboxes=1):
    """By name, the words that run an image of this number of sandboxes for `steps` steps in all."""
    rounds = str(steps // QUANTUM // sandboxes)
    return {
        "`sfi run`": [program, "run", "--rounds", rounds, "--quantum", str(QUANTUM)],
        "C, each step": [interpreter, "each", rounds, str(QUANTUM)],
        "C, once": [interpreter, "once", rounds, str(QUANTUM)],
    }


def build(program, name, sandboxes, folder):
    """The path of the image of a source whose text is repeated for each of the sandboxes."""
    with open(os.path.join(measure.BENCH, name + ".s"), "rb") as source:
        text = measure.written(os.path.join(folder, name + ".s"), source.read() * sandboxes)
    image, _ = measure.run([program, "build"], text)
    return measure.written(os.path.join(folder, name + ".hex"), image.encode())


def print_speed(program, interpreter, name, sandboxes, rounds, folder):
    image = build(program, name, sandboxes, folder)
    timed, few, more = (commands(program, interpreter, steps, sandboxes) for steps in [TIMED, COUNTED, 2 * COUNTED])
    if len({measure.run(words, image)[0] for words in timed.values()}) != 1:
        raise SystemExit(f"bench: {name}, {sandboxes}: the lines differ")
    times = measure.medians({way: (words, image) for way, words in timed.items()}, rounds)
    cells = [f"{name}, {sandboxes}"]
    for way, seconds in times.items():
        per_step = (measure.instructions(more[way], image) - measure.instructions(few[way], image)) / COUNTED
        cells.append(f"{TIMED / seconds / 1e6:.0f}, {per_step:.0f}")
    ours, *others = times.values()
    cells += [f"{ours / other:.2f}" for other in others]
    print("|", " | ".join(cells), "|", flush=True)


def print_least(program, interpreter, name, sandboxes, rounds, folder):
    image = build(program, name, sandboxes, folder)
    pairs = {(way, steps): (words, image) for steps in [FEW, MANY] for way, words in commands(program, interpreter, steps, sandboxes).items()}
    least = measure.leasts(pairs, rounds)
    ours, *others = (1e9 * (least[way, MANY] - least[way, FEW]) / (MANY - FEW) for way, steps in pairs if steps == FEW)
    cells = [f"{name}, {sandboxes}"] + [f"{step:.2f}" for step in [ours, *others]] + [f"{ours / other:.2f}" for other in others]
    print("|", " | ".join(cells), "|", flush=True)


@dataclass
class CompiledRun:
    """A program in a format: the steps of all sandboxes, and by way the instructions and the nanoseconds of a step."""
    steps: int
    counts: dict
    times: dict

    def seconds(self):
        return self.steps * self.times["sfi"]


def compiled_run(program, interpreter, name, image_format, rounds, folder):
    """What the program takes in a format, less what a run of one step a sandbox takes, each time the least of `rounds` runs."""
    digits = compiled.digits_of_case(name)
    assembly = os.path.join(compiled.EXAMPLES, "build", *[image_format] * (image_format == compiled.WORDS), name + ".asm")
    image, _ = compiled.built(assembly, image_format, [], folder, SANDBOXES[-1])
    ways = {"sfi": lambda *turns: [program, "run", "--rounds", turns[0], "--quantum", turns[1], "--input", digits],
            "C": lambda *turns: [interpreter, "once", *turns, digits]}
    one, whole = ("1", "1"), ("1000", str(QUANTUM))
    cut = {measure.run(way(*CUT), image)[0] for way in ways.values()}
    lines = {measure.run(way(*whole), image)[0] for way in ways.values()}
    if len(cut) != 1 or len(lines) != 1 or "ready" in (text := lines.pop()):
        raise SystemExit(f"bench: {name}, format {image_format}: the lines differ, or a sandbox didn't end")
    steps = sum(map(int, re.findall(r"steps=(\d+)", text))) - SANDBOXES[-1]
    least = measure.leasts({(way, turns): (words(*turns), image) for way, words in ways.items() for turns in [one, whole]}, rounds)
    counts = {way: (measure.instructions(words(*whole), image) - measure.instructions(words(*one), image)) / steps for way, words in ways.items()}
    return CompiledRun(steps, counts, {way: 1e9 * (least[way, whole] - least[way, one]) / steps for way in ways})


# By title, what a column has of a run, which may be compared with the run in the second format.
COLUMNS = {
    "instructions: `sfi run`": lambda run, second: run.counts["sfi"],
    "instructions: C, once": lambda run, second: run.counts["C"],
    "ns: `sfi run`": lambda run, second: run.times["sfi"],
    "ns: C, once": lambda run, second: run.times["C"],
    "C's time to `sfi run`'s": lambda run, second: run.times["C"] / run.times["sfi"],
    "time to the second format's": lambda run, second: run.seconds() / second.seconds(),
}


def print_row(title, rows):
    """Prints a row: of each column and format, the geometric mean over the runs of these rows."""
    cells = [", ".join(f"{compiled.mean([value(runs[it], runs[2]) for runs in rows]):.2f}" for it in FORMATS) for value in COLUMNS.values()]
    print("|", " | ".join([title, *cells]), "|", flush=True)


def print_compiled(program, interpreter, rounds, folder):
    """Prints a row for each program, and one of their means."""
    print("|", " | ".join(["program", *COLUMNS]), "|")
    rows = []
    for name in compiled.CASES:
        rows.append({it: compiled_run(program, interpreter, name, it, rounds, folder) for it in FORMATS})
        print_row(name, rows[-1:])
    print_row("geometric mean", rows)


def print_load(program, shape, rounds, folder):
    data = images.image("pairs", *shape)
    text = measure.written(os.path.join(folder, "text"), images.as_text(data))
    words = [program, "run", "--quantum", "1"]
    seconds = measure.medians({"run": (words, text)}, rounds)["run"]
    millions = measure.instructions(words, text) / 1e6
    print(f"| {len(data):,} | {millions:.1f} | {seconds:.3f} | {measure.peak(words, text):,} |", flush=True)


def main():
    parser = argparse.ArgumentParser()
    parser.add_argument("--program", default=measure.PROGRAM)
    parser.add_argument("--rounds", type=int, default=5)
    parser.add_argument("--least", action="store_true")
    parser.add_argument("--compiled", action="store_true")
    options = parser.parse_args()
    program = measure.program_at(options.program)
    with tempfile.TemporaryDirectory() as folder:
        interpreter = measure.compiled("interpreter.c", os.path.join(folder, "interpreter"))
        if options.compiled:
            print_compiled(program, interpreter, options.rounds, folder)
            return
        print("| source, sandboxes |", " | ".join(commands(program, interpreter, 0)), "| to each step | to once |")
        for name in NAMES:
            for sandboxes in SANDBOXES:
                show = print_least if options.least else print_speed
                show(program, interpreter, name, sandboxes, options.rounds, folder)
        if options.least:
            return
        print("| bytes of image | million instructions | seconds | KiB |")
        for shape in images.SIZES:
            print_load(program, shape, options.rounds, folder)


if __name__ == "__main__":
    main()
