#!/usr/bin/env python3
"""How fast all of Lua 5.4 is in a sandbox: scripts by native code, and by `sfi run`, beside Debian's lua5.4.

    bench/lua.py [--program PATH] [--sources FOLDER] [--format N] [--heap BYTES] [--rounds N] [--way WAY ..] [SCRIPT ..]

Scripts are those of examples/c/programs, which are short, and those of longer/ if none are named; each folder has its mean. It wants lua5.4, Lua's sources (examples/c/programs.py --fetch) and
sfi-cc's tools. WAY is native or run: both, where none is named. Before the scripts it prints how long `sfi exec` takes for Lua's start, by
an empty script. Processor seconds of lua5.4, each the least of N alternated runs, and the ratios of the others to it; it ends where one prints another
line than the others.
"""
import argparse
import glob
import os
import shutil
import subprocess
import sys
import tempfile
import time
from dataclasses import replace
from itertools import groupby

TOP = os.path.dirname(os.path.dirname(os.path.abspath(__file__)))
sys.dont_write_bytecode = True
sys.path.insert(0, os.path.join(TOP, "tools"))
from suygapid import native
from suygapid.kept import root
from suygapid.trials import measure, programs
from suygapid.trials.compiled import EXAMPLES, mean
from testing import FORMATS
from translated import NATIVE_TURNS, TURNS, by_native_code, native_console

WAYS = ("native", "run")
FOLDERS = (os.path.join(EXAMPLES, "programs"), os.path.join(measure.BENCH, "longer"))


def lua_image(given, folder):
    """The image of Lua."""
    programs.PROGRAMS["lua"] = replace(programs.PROGRAMS["lua"], heap=given.heap)
    tree = programs.tree_of(programs.PROGRAMS["lua"], given, folder)
    if tree is None:
        sys.exit(f"bench: Lua's sources aren't in {given.sources}: examples/c/programs.py --fetch lua")
    elf, image = programs.built("lua", tree, folder, given.format, given)
    return image if elf else sys.exit(f"bench: {image}")


def ways_of(given, image, folder):
    """By way, what gives the words that run a script's bytes, and the file that these read."""
    path = measure.written(os.path.join(folder, "image"), image)
    ways = {}
    if "native" in given.way:
        words = by_native_code(native_console(folder), image, folder, "lua")
        ways["native"] = lambda script: ([*words, *NATIVE_TURNS, script.hex()], os.devnull)
    if "run" in given.way:
        ways["run"] = lambda script: ([given.program, "run", *TURNS, "--input", script.hex()], path)
    return ways


def measured(given, script, ways_of_script):
    """The seconds of lua5.4, and by way the ratio to it."""
    ways = {way: it(measure.contents(script)) for way, it in ways_of_script.items()}
    lines = {way: measure.run(*it)[0] for way, it in ways.items()}
    if len(set(lines.values())) != 1:
        sys.exit(f"bench: {script}: the lines differ: {lines}")
    least = measure.leasts({"lua5.4": (["lua5.4", script], os.devnull)} | ways, given.rounds)
    return least["lua5.4"], [least[way] / least["lua5.4"] for way in ways]


def start_seconds(given, image, folder):
    """The least seconds, on a clock, in which `sfi exec` begins and ends Lua with an empty script."""
    words = [*native.program_words(given.program), "exec", measure.written(os.path.join(folder, "image"), image)]
    seconds = []
    for _ in range(given.rounds):
        begun = time.perf_counter()
        subprocess.run(words, stdin=subprocess.DEVNULL, check=True)
        seconds.append(time.perf_counter() - begun)
    return min(seconds)


def cells(ratios):
    return " | ".join(f"{it:.2f}" for it in ratios)


def main():
    parser = argparse.ArgumentParser(description=__doc__, formatter_class=argparse.RawDescriptionHelpFormatter)
    parser.add_argument("scripts", nargs="*", default=[path for folder in FOLDERS for path in sorted(glob.glob(os.path.join(folder, "*.lua")))])
    parser.add_argument("--program", default=measure.PROGRAM)
    parser.add_argument("--sources", default=os.path.join(root(), "sources"))
    parser.add_argument("--format", choices=FORMATS, default="words")
    parser.add_argument("--heap", type=int, default=400000)
    parser.add_argument("--rounds", type=int, default=9)
    parser.add_argument("--way", action="append", choices=WAYS)
    given = parser.parse_args()
    given.way = given.way or WAYS
    given.program, given.fetch, given.given = measure.program_at(given.program), False, []
    if not shutil.which("lua5.4"):
        sys.exit("bench: lua5.4 isn't there")
    with tempfile.TemporaryDirectory() as folder:
        image = lua_image(given, folder)
        ways = ways_of(given, image, folder)
        print(f"start by sfi exec: {start_seconds(given, image, folder):.3f} s")
        print(f"| script | lua5.4, s | {' | '.join(ways)} |\n|---|---{'|---' * len(ways)}|")
        for _, scripts in groupby(given.scripts, os.path.dirname):
            rows = []
            for script in scripts:
                least, ratios = measured(given, script, ways)
                rows.append(ratios)
                print(f"| {os.path.basename(script)} | {least:.4f} | {cells(ratios)} |", flush=True)
            print(f"| mean | | {cells(mean(column) for column in zip(*rows))} |", flush=True)


if __name__ == "__main__":
    main()
