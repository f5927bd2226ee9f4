"""Options that several commands have, and what their values are."""
import argparse
import json
import os

from suygapid import TOP
from suygapid.elf.image import SMALLEST, UNITS, Place
from suygapid.image.layout import MOST_DATA

LARGEST = max(MOST_DATA.values())  # bytes of a region; what a format hasn't is refused when it is known


def add_program(parser: argparse.ArgumentParser) -> None:
    parser.add_argument("--program", default=os.environ.get("SFI") or os.path.join(TOP, "sfi"), metavar="SFI",
                        help="the program sfi; that which SFI names, or ./sfi at the top, if absent")


class Version(argparse.Action):
    """Prints version, commit and logic, as `./sfi --version` does: of what the program was built."""

    def __call__(self, parser: argparse.ArgumentParser, *_: object) -> None:
        from sfi_check import _built  # here, since few runs ask for it
        from sfi_run import __version__
        program = os.path.join(TOP, "crates", "sfi", "out", "sfi")
        print(parser.prog, _built.line_of({"version": __version__, **json.loads(_built.noted(program))}))
        parser.exit()


def add_version(parser: argparse.ArgumentParser) -> None:
    parser.add_argument("--version", nargs=0, action=Version, help="prints version, commit and logic")


def digits(text: str) -> bytes:
    try:
        return bytes.fromhex(text)
    except ValueError as error:
        raise argparse.ArgumentTypeError(f"{text!r} isn't hexadecimal") from error


def address(text: str) -> int:
    """An address as `sfi run` prints it: hexadecimal digits."""
    try:
        found = int(text, 16)
    except ValueError:
        found = -1
    if not 0 <= found < 1 << 32:
        raise argparse.ArgumentTypeError(f"{text!r} is no address of 32 bits in hexadecimal digits")
    return found


def place(text: str) -> Place:
    """Where code and data begin, in hexadecimal digits."""
    code, _, data = text.partition(":")
    return address(code), address(data)


def size(text: str) -> int:
    """A number of bytes, also with a unit behind it; -1 where it is none."""
    digits, unit = (text[:-1], UNITS[text[-1]]) if text[-1:] in UNITS else (text, 1)
    return int(digits) * unit if digits.isdigit() else -1


def room(text: str) -> int:
    """The bytes of the heap or the stack."""
    found = size(text)
    if not 0 <= found <= LARGEST:
        raise argparse.ArgumentTypeError(f"{text!r} is no number from 0 to {LARGEST}")
    return found


def region(text: str) -> int:
    """The size of a data region."""
    found = size(text)
    if not SMALLEST <= found <= LARGEST or found & (found - 1):
        raise argparse.ArgumentTypeError(f"{text!r} is no power of two from {SMALLEST} to {LARGEST}")
    return found


def add_memory(parser: argparse.ArgumentParser, absent: str) -> None:
    parser.add_argument("--memory", "--data", type=region, metavar="SIZE",
                        help=f"the size of the data region, a power of two, as 65536 or 64K: of objects, heap and stack; {absent} if absent")
