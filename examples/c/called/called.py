#!/usr/bin/env python3
"""Functions with arrays on their stack that a host calls by their names, through libsfi_run.

    examples/c/called/called.py [--program SFI] [--library LIBRARY] [--sample N] [--seed N]

First the ten of functions.c, by gcc and clang, at each level of optimization in words, and by turns in bundles: what each
answers, beside what it answers natively. Then a sample of GCC's torture tests, whose `main` is called by its name; they have to do what they
do natively (torture.py says how, and which can't pass). The last line is `N passed, M failed[, K skipped]`.
"""
import argparse
import os
import random
import sys
import tempfile
from concurrent.futures import ThreadPoolExecutor
from dataclasses import replace
from multiprocessing import Pool

HERE = os.path.dirname(os.path.abspath(__file__))
TOP = os.path.dirname(os.path.dirname(os.path.dirname(HERE)))
sys.dont_write_bytecode = True
sys.path.insert(0, os.path.join(TOP, "tools"))
import libraries
from suygapid.cc.compilers import Failed, ran
from suygapid.trials import torture
from testing import formats_due, lacking, sample

SOURCE = os.path.join(HERE, "functions.c")
NUMBERS = (0, 12345, 4294967295)
STEPS = 10 ** 9
SAMPLE = 50  # of the torture tests: what the gate has time for
OTHERS = 1 << 20  # added to the number of a sample: a seed that takes others than torture.py does


def natively(folder):
    """The answers as the functions give them natively: by name and number."""
    path = os.path.join(folder, "native")
    ran(["gcc", "-O1", "-DNATIVE", "-I", os.path.dirname(HERE), SOURCE, "-o", path])
    lines = ran([path, *map(str, NUMBERS)])[0].decode().splitlines()
    return {(name, int(number)): int(answer) for name, number, answer in map(str.split, lines)}


def ways_of(options):
    """The ways in the usual format, and those in others whose turn it is."""
    pairs = [(compiler, level) for level in options.level for compiler in options.compiler]
    return [(*pair, image_format) for number, pair in enumerate(pairs) for image_format in formats_due(number, 5)]


def image_of(options, folder, way):
    """The bytes of the image that one of the ways makes."""
    compiler, level, image_format = way
    path = os.path.join(folder, "-".join(way) + ".image")
    ran([os.path.join(torture.TOOLS, "sfi-cc"), "--program", options.program, "--cc", torture.COMPILERS[compiler], "--format", image_format,
         level, SOURCE, "-o", path])
    with open(path, "rb") as file:
        return file.read()


def answers(image, calls):
    """What becomes of each call of a function, whose name and number are given, in an image that is loaded anew."""
    from sfi_run import NotReturned
    from sfi_run.names import Plugin
    found = {}
    for name, number in calls:
        with Plugin(image, steps=STEPS) as plugin:
            try:
                found[name, number] = plugin.call_words(name, number)
            except NotReturned as why:
                found[name, number] = str(why)
    return found


def functions(options, folder):
    """How many answers are right, and how many aren't."""
    wanted = natively(folder)
    counts, ways = {"passed": 0, "failed": 0}, ways_of(options)
    with ThreadPoolExecutor(2) as pool:
        for way, image in zip(ways, pool.map(lambda way: image_of(options, folder, way), ways)):
            for (name, number), found in answers(image, wanted).items():
                is_right = found == wanted[name, number]
                counts["passed" if is_right else "failed"] += 1
                if not is_right:
                    print(f"FAILED {name}({number}) by {' '.join(way)}\n  wanted {wanted[name, number]}, found {found}")
    return counts


def called(room, case, place):
    """The status and the output of a test whose main a host calls by its name, or why there are none."""
    from sfi_run import NotReturned, World
    from sfi_run.console import Console
    from sfi_run.names import export
    why = torture.linked(room, case, f"{place}.image")
    if why:
        return f"refused: {why}"
    with open(f"{place}.image", "rb") as file:
        image = file.read()
    with World(image) as world:
        console = Console(world)
        world[0].stop()
        try:
            status = world[0].call(export(image, "main"), 1, 0, steps=STEPS, serve=console.serve)
        except NotReturned as not_returned:
            return str(not_returned)
        return status, console.output[0]


def tried(task):
    return torture.tried(task, called)


def tests(options, folder):
    """What becomes of a sample of the torture tests."""
    why = torture.missing(options)
    if why:
        print(f"skipped: torture tests that are called: {why}")
        return {"skipped": 1}
    room = torture.room_of(options, folder)
    room = replace(room, more=("--program", options.program, "--export", "main"))
    names = torture.names_of(room)
    random.Random(options.seed).shuffle(names)
    cases = torture.sample_of(options, names, options.sample)
    with Pool(2) as pool:
        return torture.count(pool.imap(tried, [(room, case) for case in cases]), None)


def parsed(words):
    parser = argparse.ArgumentParser(prog="called.py", description=__doc__.split("\n", maxsplit=1)[0])
    parser.add_argument("--program", default=os.path.join(TOP, "sfi"), help="the program sfi; ./sfi at the top if absent")
    parser.add_argument("--library", default=libraries.built("sfi_run"), help="a libsfi_run.a that rt built")
    parser.add_argument("--sample", type=int, default=SAMPLE, help="how many torture tests; %(default)s if absent")
    parser.add_argument("--seed", type=int, default=sample() + OTHERS, help="which ones; by the number of commits if absent")
    options = parser.parse_args(words)
    options.program, options.library_file, options.library = os.path.abspath(options.program), os.path.abspath(options.library), None
    options.csmith, options.ieee, options.moved, options.level, options.format = 0, False, False, torture.LEVELS, None  # of torture.py
    options.compiler = [name for name, command in torture.COMPILERS.items() if not lacking(command)]
    return options


def main():
    options = parsed(sys.argv[1:])
    unbuilt = [f"{path} isn't built" for path in (options.program, options.library_file) if not os.path.exists(path)]
    why = lacking("gcc", torture.GCC) or next(iter(unbuilt), "")
    if why:
        print(f"skipped: functions that are called: {why}\n0 passed, 0 failed, 1 skipped")
        return 0
    counts = {"passed": 0, "failed": 0, "skipped": 0}
    if "clang" not in options.compiler:
        counts["skipped"] = 1
        print(f"skipped: functions by clang: {lacking(torture.CLANG)}")
    with tempfile.TemporaryDirectory() as folder:
        ran([os.path.join(torture.TOOLS, "libraries.py"), "sfi_run", options.library_file, folder])
        os.environ["SFI_RUN_LIBRARY"] = os.path.join(folder, "libsfi_run.so")
        for part in (functions, tests):
            for what, count in part(options, folder).items():
                counts[what] = counts.get(what, 0) + count
    print(f"{counts['passed']} passed, {counts['failed']} failed" + (f", {counts['skipped']} skipped" if counts["skipped"] else ""))
    return 1 if counts["failed"] else 0


if __name__ == "__main__":
    try:
        sys.exit(main())
    except Failed as failed:
        print(f"called.py: {failed}\n{failed.told.decode(errors='replace')}\n0 passed, 1 failed")
        sys.exit(1)
