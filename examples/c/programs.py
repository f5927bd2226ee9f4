#!/usr/bin/env python3
"""Programs that people have, of their sources as they are: natively, and by sfi-cc with newlib or C++'s library in each format.

    examples/c/programs.py [OPTIONS] [NAME ..|--all]

Without names it tries a sample in the usual format, or all in each format where EACH_FORMAT is set, as by ./test. Exit codes and outputs are compared, and a table has the steps, the bytes of code, and the seconds of `sfi run`. The sources
are Debian's: those of GCC in gcc-12-source, the others' archives in the folder --sources, where --fetch has apt-get put
them. A program whose sources aren't there is skipped. The last line is `N passed, M failed[, K skipped]`.
"""
import argparse
import os
import re
import resource
import subprocess
import sys
import tempfile
from dataclasses import dataclass
from typing import NamedTuple

TOP = os.path.dirname(os.path.dirname(os.path.dirname(os.path.abspath(__file__))))
sys.dont_write_bytecode = True
sys.path.insert(0, os.path.join(TOP, "tools"))
from suygapid.kept import root
from suygapid.passes.typed import USUAL
from suygapid.trials import programs
from suygapid.trials.programs import PROGRAMS
from testing import FORMATS

SAMPLE = ("zlib", "cjson", "tinyxml2", "tinyscheme", "truetype")  # what builds in seconds
NO_ROOM = re.compile("more than format [12] has room for")


@dataclass(frozen=True)
class Found:
    """What a run did, and what it took in a sandbox."""
    code: int
    output: bytes
    steps: int = 0
    seconds: float = 0


def natively(name, tree, folder):
    """What the program does with each input, as gcc makes it here."""
    native = os.path.join(folder, f"{name}.native")
    subprocess.run([PROGRAMS[name].compiler(), *programs.options_of(name, tree, folder), "-o", native, *programs.files_of(name, tree), "-lm"], check=True)
    runs = [(it, subprocess.run([native], input=programs.given_to(it, tree), stdout=subprocess.PIPE, check=False))
            for it in PROGRAMS[name].inputs.split()]
    return {it: Found(done.returncode, done.stdout) for it, done in runs}


def sandboxed(image, given, options):
    """What a program does in a sandbox."""
    before = resource.getrusage(resource.RUSAGE_CHILDREN)
    line = subprocess.run([options.program, *programs.RUN, "--input", given.hex()], input=image, stdout=subprocess.PIPE, check=False).stdout.decode()
    after = resource.getrusage(resource.RUSAGE_CHILDREN)
    match = re.fullmatch(r"sandbox=0 exit=(\d+) steps=(\d+) out=([0-9a-f]*)\n", line)
    if not match:
        return line[:300].strip()
    return Found(int(match[1]), bytes.fromhex(match[3]), int(match[2]), after.ru_utime - before.ru_utime)


class Results:
    """What is told and counted."""

    def __init__(self):
        self.passed = self.failed = self.skipped = 0
        self.rows = []

    def tell_row(self, row):
        """Prints a row at once, and again in the table at the end."""
        self.rows.append(row)
        print(row, flush=True)

    def compare(self, what, wanted, found):
        if isinstance(found, Found) and (found.code, found.output) == (wanted.code, wanted.output):
            self.passed += 1
        else:
            self.fail(what, f"wanted {wanted}, found {found}")

    def fail(self, what, why):
        self.failed += 1
        print(f"FAILED {what}: {why[:2000]}", flush=True)

    def skip(self, what, why):
        self.skipped += 1
        print(f"skipped: {what}: {why}", flush=True)


class Unpacked(NamedTuple):
    """A program, the folder of its sources, and one for what is made of them."""
    name: str
    tree: str
    folder: str


def try_format(place, image_format, native, options, results):
    """Tries a program in a format, with each input of what it does natively."""
    name, tree, _ = place
    elf, image = programs.built(*place, image_format, options)
    if elf is None:
        tell = results.skip if NO_ROOM.search(image) else results.fail
        return tell(f"{name}, format {image_format}", image.strip())
    for given, wanted in native.items():
        found = sandboxed(image, programs.given_to(given, tree), options)
        results.compare(f"{name}, {given}, format {image_format}", wanted, found)
        if isinstance(found, Found):
            results.tell_row(f"| {name}, {given} | {image_format} | {wanted.code}, {len(wanted.output):,} | {programs.code_size(elf):,} | "
                             f"{found.steps:,} | {found.seconds:.2f} |")
    return None


def try_program(name, options, results):
    """Tries a program in each format that is wanted, beside one native program."""
    with tempfile.TemporaryDirectory() as folder:
        tree = programs.tree_of(PROGRAMS[name], options, folder)
        if tree is None:
            return results.skip(name, programs.missing(PROGRAMS[name], options))
        native = natively(name, tree, folder)
        for image_format in options.format:
            try_format(Unpacked(name, tree, folder), image_format, native, options, results)
    return None


def parsed(words):
    parser = argparse.ArgumentParser(prog="programs.py", description=__doc__.split("\n", maxsplit=1)[0])
    parser.add_argument("names", nargs="*", metavar="NAME", help=f"of {', '.join(PROGRAMS)}; if absent {', '.join(SAMPLE)}")
    parser.add_argument("--all", action="store_true", help="tries all programs")
    parser.add_argument("--format", action="append", choices=FORMATS, help=f"all if absent, but {USUAL} of the sample")
    parser.add_argument("--sources", metavar="FOLDER", default=os.path.join(root(), "sources"),
                        help="where the archives of source packages are; %(default)s if absent")
    parser.add_argument("--fetch", action="store_true", help="runs `apt-get source --download-only` there for those that aren't")
    parser.add_argument("--program", default=os.path.join(TOP, "sfi"), help="the program sfi; ./sfi at the top if absent")
    options, options.given = parser.parse_known_args(words)
    if not set(options.names) <= set(PROGRAMS):
        parser.error(f"the programs are {', '.join(PROGRAMS)}")
    is_whole = options.all or bool(os.environ.get("EACH_FORMAT"))
    options.format = options.format or (FORMATS if is_whole or options.names else [USUAL])
    options.names = options.names or (PROGRAMS if is_whole else SAMPLE)
    return options


def main():
    options, results = parsed(sys.argv[1:]), Results()
    for name in options.names:
        try_program(name, options, results)
    if results.rows:
        print("\n".join(["", "| program, input | format | exit, bytes of output | bytes of code | steps | seconds |", "|---" * 6 + "|", *results.rows]))
    print(f"{results.passed} passed, {results.failed} failed" + (f", {results.skipped} skipped" if results.skipped else ""))
    return 1 if results.failed else 0


if __name__ == "__main__":
    sys.exit(main())
