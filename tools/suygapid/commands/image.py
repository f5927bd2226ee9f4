"""From ELF files that tools/sfi-cc linked to an image, each of them a sandbox, in their order.

    tools/sfi-image [--stack BYTES] [--memory SIZE] [--at CODE:DATA ..] [--raw] [-o FILE] PROGRAM.elf ..

The image is hexadecimal text, as `sfi check` and `sfi run` read it. What is wrong with a file is told in a line on standard
error, and the status is 1; it is 2 where a file can't be read or written. Nothing here is trusted: the checker reads the
image. docs/C.md says more.
"""
import argparse
import sys

from suygapid.commands.options import add_memory, add_version, place, room
from suygapid.elf.elf import Elf, Wrong
from suygapid.elf.image import as_text, image


def parsed(words):
    parser = argparse.ArgumentParser(prog="sfi-image", description=__doc__.split("\n", maxsplit=1)[0])
    parser.add_argument("programs", nargs="+", metavar="PROGRAM.elf", help="a linked program")
    parser.add_argument("-o", dest="output", metavar="FILE", help="where to write; standard output if absent")
    parser.add_argument("--stack", type=room, metavar="BYTES",
                        help="room for the stack at least; what sfi-cc was given, or 8192, if absent")
    add_memory(parser, "that which sfi-cc chose")
    parser.add_argument("--at", type=place, action="append", default=[], metavar="CODE:DATA",
                        help="where the next program lies, in hexadecimal; it was linked there or with --movable")
    parser.add_argument("--raw", action="store_true", help="writes the image's bytes, and not their digits")
    add_version(parser)
    return parser.parse_args(words)


def main():
    options = parsed(sys.argv[1:])
    try:
        made = image([Elf(path) for path in options.programs], options.stack, options.memory, options.at)
        content = made if options.raw else as_text(made)
        with open(options.output or sys.stdout.fileno(), "wb", closefd=options.output is not None) as file:
            file.write(content)
    except Wrong as wrong:
        print(f"sfi-image: {wrong}", file=sys.stderr)
        return 1
    except OSError as error:
        print(f"sfi-image: {error.filename or 'standard output'}: {error.strerror}", file=sys.stderr)
        return 2
    return 0
