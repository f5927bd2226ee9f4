"""Says whether what tools/asm2elf made of a compiler's assembly does the same, or names the first instruction that doesn't.

    tools/sfi-validate [--all] [--movable] COMPILERS.s REWRITTEN

REWRITTEN is the assembly that asm2elf made of it, or the object of that. Both are read as machine code, and compared
stretch by stretch, with nothing of the converter's. The status is 0 where each instruction was found to do the same, 1
where one wasn't, and 2 where a file can't be read. suygapid/validate/validating.py says how, and what is taken for granted.
"""
import argparse
import sys

from suygapid.validate.files import Failed, compilers_object, rewritten_object
from suygapid.validate.validating import complaints


def main():
    parser = argparse.ArgumentParser(prog="sfi-validate", description=__doc__.split("\n", maxsplit=1)[0])
    parser.add_argument("compilers", metavar="COMPILERS.s", help="the compiler's assembly")
    parser.add_argument("rewritten", metavar="REWRITTEN", help="what asm2elf made of it, or the object of that")
    parser.add_argument("--all", action="store_true", help="names all that differ, and not the first alone")
    parser.add_argument("--movable", action="store_true", help="the rewritten code is that of a program that can be moved")
    options = parser.parse_args()
    try:
        found = complaints(compilers_object(options.compilers), rewritten_object(options.rewritten), options.movable)
    except Failed as failed:
        print(f"sfi-validate: {failed}", file=sys.stderr)
        return 2
    for line, what in found if options.all else found[:1]:
        place = f"{options.compilers}:{line}" if line else options.compilers
        print(f"sfi-validate: {place}: {what}", file=sys.stderr)
    return 1 if found else 0
