"""Runs a program with the console's services, and shows what it does: each instruction, each call, what it comes by at
breakpoints, or where its steps go, also as a picture.

    tools/sfi-trace [OPTIONS] IMAGE | TEXT.s | PROGRAM.elf | FILE.c .. [OPTIONS OF sfi-cc]

An image, as bytes or hexadecimal text, has no names; those of a source text are its labels; C is compiled by tools/sfi-cc with -g, and has lines, and so has
what sfi-cc linked with -g. The last lines are those of `sfi run`. docs/C.md says more.
"""
import argparse
import os
import sys

import sfi_run
from suygapid.commands.options import add_program, add_version, digits
from suygapid.pictures.flame import Flame, write
from suygapid.trace.programs import Failed, program
from suygapid.trace.tracing import Breaks, Calls, Instructions, Profile, Tracer


def count(text):
    if not text.isdigit() or not int(text):
        raise argparse.ArgumentTypeError(f"{text!r} is no number from 1 on")
    return int(text)


def parsed(words):
    parser = argparse.ArgumentParser(prog="sfi-trace", usage="sfi-trace [OPTIONS] IMAGE | TEXT.s | PROGRAM.elf | FILE.c .. [OPTIONS OF sfi-cc]",
                                     description=__doc__.split("\n\n", maxsplit=1)[0], allow_abbrev=False)
    what = parser.add_mutually_exclusive_group()
    what.add_argument("--calls", action="store_true", help="prints the calls of gates alone, with their replies")
    what.add_argument("--break", dest="places", action="append", metavar="PLACE",
                      help="prints the instruction and the registers each time that it comes by a name, an address, or FILE:LINE of C")
    what.add_argument("--profile", choices=["function", "line", "instruction"], metavar="BY",
                      help="prints how many steps each function, line or instruction takes")
    what.add_argument("--flame", metavar="NAME",
                      help="writes how many steps functions take by the calls to them: a picture, NAME.svg, and NAME.speedscope.json")
    parser.add_argument("--every", type=count, default=1, metavar="N", help="the profile counts one in N steps, which is faster")
    parser.add_argument("--steps", type=count, default=1000000, metavar="N", help="the most steps of a sandbox; 1000000 if absent")
    parser.add_argument("--quantum", type=count, default=1000, metavar="Q", help="the most steps of a turn; 1000 if absent")
    parser.add_argument("--input", type=digits, default=b"", metavar="HEX", help="what the sandboxes read")
    add_program(parser)
    add_version(parser)
    options, files = parser.parse_known_args(words)
    if not files:
        parser.error("an image, a source text or a FILE of C is wanted")
    if options.every > 1 and not options.profile:
        parser.error("--every goes with --profile")
    return options, files


def watch_of(options, shown, say, several):
    if options.flame:
        return Flame(shown)
    if options.profile:
        return Profile(say, several, shown, options.profile, options.every)
    if options.places:
        return Breaks(say, several, shown, set().union(*map(shown.addresses, options.places)))
    return Calls(say, several) if options.calls else Instructions(say, several, shown)


def traced(words):
    """The status of a trace."""
    options, files = parsed(words)
    try:
        shown = program(options.program, files)
        with sfi_run.World(shown.image) as world:
            watch = watch_of(options, shown, print, len(world) > 1)
            for line in Tracer(world, options.input, watch).run(options.steps, options.quantum):
                print(line)
        if options.flame:
            write(watch, os.path.basename(next(it for it in files if not it.startswith("-"))), options.flame)
    except BrokenPipeError:
        raise
    except (Failed, OSError, sfi_run.Refused, sfi_run.NoImage) as error:
        print(f"sfi-trace: {error}", file=sys.stderr)
        return 1
    return 0


def main():
    try:
        return traced(sys.argv[1:])
    except (BrokenPipeError, KeyboardInterrupt):
        sys.stderr.close()
        return 1
