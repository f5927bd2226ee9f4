#!/usr/bin/env python3
"""GCC's torture tests (gcc.c-torture/execute), or programs by csmith, in sandboxes: what each does, beside what it does natively.

    examples/c/torture/torture.py [OPTIONS] [NAME ..]

Each test is compiled twice by one compiler: for qemu-riscv32 with picolibc, and by the way of sfi-cc. Where the first exits
with 0, the second has to, and to print the same. A sample runs if no names and no --all are given, each test in another of
the ways, three of five in words; the number of commits says which of six samples. In these ways the
programs of --csmith run, too. The last line is `N passed, M failed[, K skipped]`; a line `skipped: WHAT: WHY` tells each that can't pass.

Of --all with --library newlib all passed in the second format (2026-11-26, by a converter of whole programs) but pr60822, whose
data exceed 1 MiB (so 1,577 of 1,578 by gcc -O2), by clang pr79286, which reads an unset variable, and of --ieee cdivchkld, which
wants what newlib hasn't.
"""
import argparse
import functools
import os
import random
import re
import sys
import tempfile
from multiprocessing import Pool

TOP = os.path.dirname(os.path.dirname(os.path.dirname(os.path.dirname(os.path.abspath(__file__)))))
sys.dont_write_bytecode = True
sys.path.insert(0, os.path.join(TOP, "tools"))
from suygapid import TOOLS
from suygapid.cc.compilers import Failed, ran
from suygapid.trials.torture import COMPILERS, LEVELS, Case, count, linked, missing, names_of, room_of, sample_of, tried, ways_of
from testing import CLANG, FORMATS, lacking, sample

SAMPLE = 100
RUN = ["run", "--rounds", "1000", "--quantum", "1000000"]
ELSEWHERE = "05000000:08000000"  # a place for what can be moved


def sandboxed(room, case, place):
    """The status and the output in a sandbox, or why there are none."""
    program = f"{place}.elf"
    why = linked(room, case, program)
    if why:
        return f"refused: {why}"
    try:
        image, _ = ran([f"{TOOLS}/sfi-image", *["--at", ELSEWHERE] * room.is_moved, program])
        ran([room.program, "check"], image)
        line = ran([room.program, *RUN], image)[0].decode()
    except Failed as failed:
        return f"fault: {failed} {failed.told[:200]!r}"
    match = re.fullmatch(r"sandbox=0 exit=(\d+) steps=\d+ out=([0-9a-f]*)\n", line)
    return (int(match.group(1)), bytes.fromhex(match.group(2))) if match else line[:200].strip()


def cases_of(options, room):
    """The cases that are asked for, in an order that is always the same."""
    names = names_of(room)
    if options.names or options.all or options.ieee:
        return [Case(name, *way) for name in options.names or names for way in ways_of(options, options.format or FORMATS)]
    if not options.csmith:
        random.Random(options.seed).shuffle(names)
    return sample_of(options, names, options.csmith or SAMPLE)


def parsed(words):
    parser = argparse.ArgumentParser(prog="torture.py", description=__doc__.split("\n", maxsplit=1)[0])
    parser.add_argument("names", nargs="*", metavar="NAME", help="tests that run in each way, in place of the sample")
    parser.add_argument("--all", action="store_true", help="all tests in each way")
    parser.add_argument("--ieee", action="store_true", help="the tests of the folder ieee, all in each way")
    parser.add_argument("--csmith", type=int, default=0, metavar="COUNT", help="COUNT programs by csmith in place of the tests")
    parser.add_argument("--seed", type=int, default=sample(), help="the sample's seed, or that of csmith's first program; "
                        "by the number of commits one of 0 to 5, %(default)s, if absent")
    parser.add_argument("--compiler", action="append", choices=COMPILERS, help="gcc and clang if absent")
    parser.add_argument("--level", action="append", choices=LEVELS, help="such as --level=-O2; all if absent")
    parser.add_argument("--format", action="append", choices=FORMATS, help="all if absent")
    parser.add_argument("--library", metavar="NAME", help="sfi-cc's library of this name in place of the small one")
    parser.add_argument("--moved", action="store_true", help="each at another place than that where it was linked, by --movable")
    parser.add_argument("--jobs", type=int, default=2, help="how many run side by side; 2 if absent")
    parser.add_argument("--program", default=os.path.join(TOP, "sfi"), help="the program sfi; ./sfi at the top if absent")
    options = parser.parse_args(words)
    options.level = options.level or LEVELS
    options.asked = options.compiler
    options.compiler = options.compiler or [name for name, command in COMPILERS.items() if not lacking(command)]
    return options


def main():
    options = parsed(sys.argv[1:])
    why = missing(options)
    if why:
        print(f"skipped: torture tests: {why}\n0 passed, 0 failed, 1 skipped")
        return 0
    skipped = 0
    if "clang" not in options.compiler and not options.asked:
        skipped = 1
        print(f"skipped: torture tests by clang: {lacking(CLANG)}")
    with tempfile.TemporaryDirectory() as folder:
        room = room_of(options, folder)
        with Pool(options.jobs) as pool:
            counts = count(pool.imap(functools.partial(tried, sandboxed=sandboxed), [(room, case) for case in cases_of(options, room)]), options.library)
    skipped += counts["skipped"]
    print(f"{counts['passed']} passed, {counts['failed']} failed" + (f", {skipped} skipped" if skipped else ""))
    return 1 if counts["failed"] else 0


if __name__ == "__main__":
    sys.exit(main())
