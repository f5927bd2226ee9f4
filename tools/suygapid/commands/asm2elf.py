"""Rewrites one file of the assembly that a RISC-V compiler makes to GNU assembly for a sandbox.

    python3 tools/asm2elf [--format N] [--passes NAMES] [--jobs N] [-o OUT.s] IN.s
    python3 tools/asm2elf [--format N] [--passes NAMES] --into FOLDER IN.s ..

Only instructions change: each gets its masks, its size, and its place in a word or a bundle. Labels, data, symbols and
sections go on to `as`, and debug information but for the places of variables that the passes make wrong; `ld` places,
joins and relocates. Nothing of this is trusted: the checker reads the bytes of the image that tools/sfi-image makes. What
can't be rewritten is told on standard error with its file and line, a mistake of the converter with its file and traceback,
and the status is 1; it is 2 where a file can't be read or written. docs/C.md says more.
"""
import argparse
import gc
import os
import sys

from suygapid.passes import checking
from suygapid.passes.assembly import Broken, Refused
from suygapid.passes.improving import PASSES
from suygapid.passes.rewriting import rewritten
from suygapid.passes.typed import IN_WORDS, USUAL, format_of

ENCODING = {"encoding": "utf-8", "errors": "surrogateescape"}


def parsed(words):
    parser = argparse.ArgumentParser(prog="asm2elf", description=__doc__.split("\n", maxsplit=1)[0])
    parser.add_argument("files", nargs="+", metavar="IN.s", help="assembly of gcc or clang")
    parser.add_argument("-o", dest="output", metavar="OUT.s", help="where to write; standard output if absent")
    parser.add_argument("--into", metavar="FOLDER", help="where to write a file of the same name for each of several")
    parser.add_argument("--format", type=format_of, choices=[1, 2, *IN_WORDS], default=USUAL, help=f"the image's format; {USUAL} if absent")
    parser.add_argument("--passes", metavar="NAMES",
                        help=f"the passes that make the code cheaper; {','.join(PASSES)} if absent, "
                             f"with --debug {','.join(checking.PASSES)}")
    parser.add_argument("--debug", action="store_true", help="in words or single: an ebreak ends the run where masks would change something")
    parser.add_argument("--jobs", type=int, default=os.cpu_count() or 1, metavar="N", help="how many processes share a long file's functions; "
                                                                                          "as many as there are processors if absent")
    parser.add_argument("--movable", action="store_true", help="addresses are made from the bases of the sandbox's regions at run time")
    options = parser.parse_args(words)
    passes = checking.PASSES if options.debug else PASSES
    if options.passes is None:
        options.passes = ",".join(passes)
    options.passes = tuple(name for name in options.passes.split(",") if name)
    if not set(options.passes) <= set(passes):
        parser.error(f"the passes are {', '.join(passes)}")
    if options.debug and options.format not in IN_WORDS:
        parser.error(f"--debug is for {' and '.join(IN_WORDS)}")
    if len(options.files) > 1 and not options.into:
        parser.error("several files want --into")
    return options


def rewrite(options, path):
    """Writes what becomes of one file."""
    with open(path, **ENCODING) as file:
        text = rewritten(os.path.basename(path), file.read(), options.passes, options.format, options.movable, options.jobs,
                         options.debug)
    output = os.path.join(options.into, os.path.basename(path)) if options.into else options.output
    with open(output or sys.stdout.fileno(), "w", closefd=output is not None, **ENCODING) as file:
        file.write(text)


def main():
    gc.disable()  # what is made of a file is needed up to its end
    options = parsed(sys.argv[1:])
    try:
        for path in options.files:
            rewrite(options, path)
    except (Refused, Broken) as reason:
        print(f"asm2elf: {reason}", file=sys.stderr)
        return 1
    except OSError as error:
        print(f"asm2elf: {error.filename or 'standard output'}: {error.strerror}", file=sys.stderr)
        return 2
    return 0
