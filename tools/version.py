#!/usr/bin/env python3
"""Prints the version, or gives another to each file that states one.

    tools/version.py [VERSION]

The version is that of the program, `VERSION` in crates/sfi_command/src/commands.rt. A header, a package or a page can't read
it there, so each has a copy of its own: PLACES lists them all, and a test compares them. NUMBERS lists where it is one
number, for a program to compare: 65536 for each major version, 256 for each minor and 1 for each patch. NAMES lists where
the name of the packages stands.
"""
import pathlib
import re
import sys

TOP = pathlib.Path(__file__).resolve().parent.parent
NAME = "suygapid"  # by which each package is installed; in programs for Python and Rust it is called sfi_run
FIRST = ("crates/sfi_command/src/commands.rt", r'pub const VERSION: &str = "(.*)";')
PLACES = [
    FIRST,
    ("crates/sfi_tests/src/tests/rows/words.rt", r"> sfi (\d+\.\d+\.\d+); status 3"),
    ("crates/sfi_c/include/sfi.h", r'#define SFI_VERSION "(.*)"'),
    ("crates/sfi_run/include/sfi_run.h", r'#define SFI_RUN_VERSION "(.*)"'),
    ("bindings/python/pyproject.toml", r'^version = "(.*)"'),
    ("bindings/python/sfi_run/__init__.py", r'^__version__ = "(.*)"'),
    ("bindings/python/sfi_check/__init__.py", r'^__version__ = "(.*)"'),
    ("bindings/rust/Cargo.toml", r'^version = "(.*)"'),
    ("bindings/rust/Cargo.lock", r'^name = "suygapid"\nversion = "(.*)"'),
    ("bindings/node/package.json", r'^  "version": "(.*)"'),
    ("device/rust/Cargo.toml", r'^version = "(.*)"'),
    ("device/rust/Cargo.lock", r'^name = "sfi_device"\nversion = "(.*)"'),
    ("bindings/node/library.mjs", r'^export const VERSION = "(.*)"'),
    ("README.md", r"--path suygapid-(\d+\.\d+\.\d+)"),
    ("docs/sfi.1", r'^\.TH .* "Suygapid (.*)" '),
    ("docs/sfi-cc.1", r'^\.TH .* "Suygapid (.*)" '),
    ("docs/sfi-check.1", r'^\.TH .* "Suygapid (.*)" '),
    ("docs/sfi-corpus.1", r'^\.TH .* "Suygapid (.*)" '),
    ("docs/sfi-exec.1", r'^\.TH .* "Suygapid (.*)" '),
    ("docs/sfi-gdb.1", r'^\.TH .* "Suygapid (.*)" '),
    ("docs/sfi-image.1", r'^\.TH .* "Suygapid (.*)" '),
    ("docs/sfi-map.1", r'^\.TH .* "Suygapid (.*)" '),
    ("docs/sfi-move.1", r'^\.TH .* "Suygapid (.*)" '),
    ("docs/sfi-library.1", r'^\.TH .* "Suygapid (.*)" '),
    ("docs/sfi-trace.1", r'^\.TH .* "Suygapid (.*)" '),
    ("CHANGELOG.md", r"^## (\d+\.\d+\.\d+)"),
]
NAMES = [
    ("bindings/python/pyproject.toml", r'^name = "(.*)"'),
    ("bindings/rust/Cargo.toml", r'^name = "(.*)"'),
    ("bindings/rust/Cargo.lock", r'^name = "(.*)"'),
    ("bindings/node/package.json", r'^  "name": "(.*)"'),
]
NUMBERS = [
    ("crates/sfi_c/src/version.rt", r"\bVERSION_NUMBER: u32 = (.*);"),
    ("crates/sfi_c/include/sfi.h", r"#define SFI_VERSION_NUMBER (.*)"),
    ("crates/sfi_run/src/version.rt", r"\bVERSION_NUMBER: u32 = (.*);"),
    ("crates/sfi_run/include/sfi_run.h", r"#define SFI_RUN_VERSION_NUMBER (.*)"),
]


def stated(place):
    """The version that a file states, and where in its text."""
    file, pattern = place
    text = (TOP / file).read_text(encoding="utf-8")
    found = re.search(pattern, text, re.MULTILINE)
    if not found:
        sys.exit(f"version.py: {file} states no version")
    return text, found


def version():
    return stated(FIRST)[1][1]


def number_of(words):
    """The number of a version, as C and Rattle write it: 0x000102 of 0.1.2."""
    parts = [int(word) for word in words.split(".")]
    if max(parts) > 255:
        sys.exit(f"version.py: {words} has no number: a part is above 255")
    return f"0x{parts[0]:02x}{parts[1]:02x}{parts[2]:02x}"


def state(places, words):
    """Gives each of the places these words."""
    for place in places:
        text, found = stated(place)
        (TOP / place[0]).write_text(text[:found.start(1)] + words + text[found.end(1):], encoding="utf-8")


def main(words):
    if words:
        if len(words) > 1 or not re.fullmatch(r"\d+\.\d+\.\d+", words[0]):
            sys.exit("usage: tools/version.py [MAJOR.MINOR.PATCH]")
        state(PLACES, words[0])
        state(NUMBERS, number_of(words[0]))
    print(version())


if __name__ == "__main__":
    main(sys.argv[1:])
