#!/usr/bin/env python3
"""Runs the sandboxes of an image with the services of the console, and prints what `sfi run` prints.

    console.py IMAGE [ROUNDS [QUANTUM [INPUT]]]    # IMAGE holds the image's own bytes

INPUT is hexadecimal, or `-`: then the sandboxes read what standard input has, which may be longer than a command line.
"""
import pathlib
import sys

import sfi_run
from sfi_run.console import Console


def main(image, rounds="1", quantum="1000", given=""):
    with sfi_run.World(pathlib.Path(image).read_bytes()) as world:
        console = Console(world, sys.stdin.buffer.read() if given == "-" else bytes.fromhex(given))
        console.rounds(int(rounds), int(quantum))
        for sandbox in world:
            print(console.line(sandbox))


if __name__ == "__main__":
    main(*sys.argv[1:])
