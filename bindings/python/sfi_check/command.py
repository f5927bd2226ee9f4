"""Says of each file whether it is an accepted image, in a line as it is judged: what was read, its SHA-256, the verdict with the first
broken rule and its place, and of what the checker was built.

    sfi-check [--json] FILE..

The status is the highest of all files: 0 accepted, 1 refused, 2 no image, 4 no memory for the file, 5 it can't be read; and 3 where
the words don't parse.
"""
from __future__ import annotations

import argparse
import os
import sys
from collections.abc import Sequence
from typing import NoReturn, Optional

from . import built_words, check_file

WRONG_WORDS = 3
DIGITS = b"534649"  # with which an image begins in hexadecimal text


class Parser(argparse.ArgumentParser):
    def error(self, message: str) -> NoReturn:
        self.print_usage(sys.stderr)
        self.exit(WRONG_WORDS, f"{self.prog}: {message}\n")


class Version(argparse.Action):
    """Prints of what the checker was built; a library that isn't there is told when it is asked for, and not before."""

    def __call__(self, parser: argparse.ArgumentParser, *_: object) -> None:
        print(f"{parser.prog} {built_words()}")
        parser.exit()


def add_version(parser: argparse.ArgumentParser) -> None:
    parser.add_argument("--version", nargs=0, action=Version, help="prints version, commit and logic")


def parsed(words: Optional[Sequence[str]]) -> argparse.Namespace:
    parser = Parser(prog="sfi-check", description="Says of each file whether it is an accepted image.", allow_abbrev=False)
    parser.add_argument("--json", action="store_true", help="prints an object of JSON for each file")
    add_version(parser)
    parser.add_argument("files", nargs="+", metavar="FILE", help="an image's own bytes, and not their digits")
    return parser.parse_args(words)


def is_text(file: str) -> bool:
    """Whether a file begins as an image in hexadecimal text."""
    try:
        with open(file, "rb") as opened:
            return opened.read(len(DIGITS)) == DIGITS
    except OSError:
        return False


def main(words: Optional[Sequence[str]] = None) -> int:
    status = 0
    try:
        options = parsed(words)
        for file in options.files:
            judged = check_file(file)
            print(judged.json() if options.json else judged, flush=True)
            if is_text(file):
                print(f"sfi-check: {file} is hexadecimal text, which `sfi check` reads", file=sys.stderr)
            status = max(status, judged.status)
    except BrokenPipeError:
        os.dup2(os.open(os.devnull, os.O_WRONLY), sys.stdout.fileno())  # nothing is left to be written at the end
        return 5
    except OSError as error:
        print(f"sfi-check: {error}", file=sys.stderr)
        return 5
    return status
