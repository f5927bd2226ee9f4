"""Moves a sandbox of an image to another place.

    tools/sfi-move [--sandbox N] [--raw] --at CODE:DATA < IMAGE > MOVED

Both images are hexadecimal text, or with --raw their bytes; CODE and DATA are hexadecimal digits. The program sfi moves it
(`sfi move`), if it accepts the image, with the addresses in its table of names. It does what it did before where its code
was made for any place, as by `tools/sfi-cc --movable`. What is wrong is told in a line on standard error, with more words
than the program has, and the status is 1. docs/C.md says more.
"""
import argparse
import sys

from suygapid.cc.compilers import Failed, ran
from suygapid.commands.options import add_program, add_version, place
from suygapid.elf.elf import Wrong
from suygapid.elf.image import Sandbox, as_text, check_apart
from suygapid.image import layout

FAULTS = {"Magic": ": this is no image", "Count": ": this is no image", "Short": ": the image is cut off",
          "Trailing": ": bytes follow the image"}


def parsed(words):
    parser = argparse.ArgumentParser(prog="sfi-move", description=__doc__.split("\n", maxsplit=1)[0])
    parser.add_argument("--at", type=place, required=True, metavar="CODE:DATA", help="where it is to lie, in hexadecimal")
    parser.add_argument("--sandbox", type=int, default=0, metavar="N", help="the sandbox, counted from 0; 0 if absent")
    parser.add_argument("--raw", action="store_true", help="reads and writes bytes, and not their digits")
    add_program(parser)
    add_version(parser)
    return parser.parse_args(words)


def content_of(read, is_raw):
    """The bytes of an image."""
    try:
        return read if is_raw else bytes.fromhex(read.decode())
    except ValueError as error:
        raise Wrong("this is no hexadecimal text") from error


def reason(content, number, where):
    """Why a sandbox can't lie there, in words, or nothing where that isn't known here."""
    try:
        sandboxes = [Sandbox(**vars(part), path=f"sandbox {at}") for at, part in enumerate(layout.parts(content))]
        if not 0 <= number < len(sandboxes):
            raise Wrong(f"the image has no sandbox {number}")
        sandboxes[number] = sandboxes[number].moved(*where)
        check_apart(sandboxes)
    except Wrong as wrong:
        return f": {wrong}"
    except layout.Fault as fault:
        return FAULTS.get(layout.FAULTS[fault.number], "")
    return ""


def moved(content, options):
    """The image with the sandbox there, as the program has it; its refusal is a Wrong."""
    words = ["move", "--raw", "--at", "{:08x}:{:08x}".format(*options.at), f"--sandbox={options.sandbox}"]
    try:
        return ran([options.program, *words], content)[0]
    except Failed as failed:
        lines = failed.told.decode("utf-8", "replace").splitlines()
        told = [it for it in lines if not it.startswith("<stdin>:")] or [str(failed)]  # the fault, and not its sentence
        raise Wrong(told[0] + reason(content, options.sandbox, options.at)) from failed


def main():
    options = parsed(sys.argv[1:])
    try:
        content = content_of(sys.stdin.buffer.read(), options.raw)
        made = moved(content, options)
    except Wrong as wrong:
        print(f"sfi-move: {wrong}", file=sys.stderr)
        return 1
    sys.stdout.buffer.write(made if options.raw else as_text(made))
    return 0
