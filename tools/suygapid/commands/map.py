"""Draws a map of an image: where code, gates, data and guard zones lie, and where rules are broken.

    tools/sfi-map [-o FILE.svg] IMAGE | TEXT.s | PROGRAM.elf | FILE.c .. [OPTIONS OF sfi-cc]

An image may be its own bytes or hexadecimal text; it is drawn whether it is accepted or not.
"""
import argparse
import os
import subprocess
import sys

from suygapid.commands.options import add_program, add_version
from suygapid.image.layout import Fault
from suygapid.pictures.map import picture
from suygapid.trace.programs import Failed, program


def parsed(words):
    parser = argparse.ArgumentParser(prog="sfi-map", usage="sfi-map [-o FILE.svg] IMAGE | TEXT.s | PROGRAM.elf | FILE.c .. [OPTIONS OF sfi-cc]",
                                     description=__doc__.split("\n\n", maxsplit=1)[0], allow_abbrev=False)
    parser.add_argument("-o", dest="output", metavar="FILE.svg", help="where to write; standard output if absent")
    add_program(parser)
    add_version(parser)
    options, files = parser.parse_known_args(words)
    if not files:
        parser.error("an image, a source text or a FILE of C is wanted")
    return options, files


def main():
    options, files = parsed(sys.argv[1:])
    try:
        found = program(options.program, files)
        report = subprocess.run([options.program, "check", "--report"], input=found.image.hex(), capture_output=True, text=True, check=False).stdout
        drawn = picture(found, os.path.basename(next(it for it in files if not it.startswith("-"))), report)
        with open(options.output or sys.stdout.fileno(), "w", encoding="utf-8", closefd=options.output is not None) as file:
            file.write(drawn)
    except (Failed, Fault, OSError) as error:
        print(f"sfi-map: {error}", file=sys.stderr)
        return 1
    return 0
