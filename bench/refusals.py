#!/usr/bin/env python3
"""What the program does where an allocation is refused: each in turn.

    bench/refusals.py [--all] [--program PATH]

Tries the commands in the table of crates/sfi_hostile_tests, and more: a third of them, by turns, without --all, which `./test --all` says, too. Loads refuse.c before the C library, and lets the Nth
allocation of a run fail, for N from 1 on, until there is none left to fail.
Each run has to end in status 4 with nothing printed, or as it does with ample memory. It prints a line for each command, and a
last line `N passed, M failed`, in which a command counts as failed where a run of it ended otherwise. It wants gcc.
"""
import argparse
import os
import re
import shutil
import subprocess
import sys
import tempfile

TOP = os.path.dirname(os.path.dirname(os.path.abspath(__file__)))
sys.dont_write_bytecode = True
sys.path.insert(0, os.path.join(TOP, "tools"))
import testing
from suygapid.trials import measure

EXAMPLES = os.path.join(TOP, "examples")
TABLE = os.path.join(TOP, "crates", "sfi_hostile_tests", "src", "tests", "commands.rt")


def done(words, text, library=None, number=0):
    """Status, output and errors of a run with that input, in which the allocation of that number is refused."""
    environment = {**os.environ, "LD_PRELOAD": library, "REFUSE": str(number)} if library else None
    ended = subprocess.run(words, input=text, capture_output=True, check=False, env=environment)
    return ended.returncode, ended.stdout, ended.stderr


def refused_in_turn(words, text, library):
    """How the run ends with ample memory, and how it ends with each of its allocations refused."""
    ample = done(words, text)[:2]
    ends = []
    while True:
        status, output, errors = done(words, text, library, len(ends) + 1)
        if b"refused\n" not in errors:
            return ample, ends
        ends.append((status, output))


def listed():
    """The commands of the table, each with the name of what it reads."""
    return [(line.split(), name) for line, name in re.findall(r"^= sfi (.*?) \| (.*?) \|", measure.contents(TABLE).decode(), re.MULTILINE)]


def commands(program):
    """Command lines, and what they read."""
    source = measure.contents(os.path.join(EXAMPLES, "hi.s"))
    image = done([program, "build"], source)[1]
    smallest = measure.contents(os.path.join(EXAMPLES, "smallest.hex"))
    raw = bytes.fromhex(image.decode())
    bare = image.replace(b"b37fb501", b"13000000")
    two = done([program, "build"], b".sandbox 256\nebreak\n" + source)[1]
    # The first code of the first sandbox: sw x11, 0(x10).
    reaching = two[:72] + b"2320b500" + two[80:]
    inputs = {"smallest": smallest, "smallest bytes": bytes.fromhex(smallest.decode()), "pair on x0": bare, "source": source,
              "program": image, "head": smallest[:40]}
    return [(words, inputs[name]) for words, name in listed()] + [
        (["check", "--report"], reaching),
        (["check", "--raw"], raw),
        (["build"], source + b"frob\n"),
        (["map"], source + b"frob\n"),
        (["dis"], image),
        (["run", "--rounds", "3", "--quantum", "8", "--input", "616263"], image),
        (["run", "--rounds", "1000", "--quantum", "1"], two),
        (["run", "--report"], two),
        (["run"], reaching),
        (["convert", "--raw"], raw),
        (["convert"], bare),
        (["move", "--at", "20500000:80000000", "--raw"], raw),
        (["move", "--at", "20500000:80000000"], bare),
        (["translate", "--whole"], bare),
        (["native"], bare),
        (["frob"], b""),
        (["--help"], b""),
    ]


def keeps_its_word(program, words, text, library):
    """Whether each run of a command ends as it should. It prints what it finds."""
    ample, ends = refused_in_turn([program, *words], text, library)
    without_memory = ends.count((4, b""))
    wrong = [(number, *end) for number, end in enumerate(ends, 1) if end not in (ample, (4, b""))]
    print(f"sfi {' '.join(words)}: status {ample[0]}; {len(ends)} refusals, {without_memory} end in 4, {len(wrong)} wrong")
    for end in wrong:
        print("   ", end)
    return not wrong


def main():
    options = argparse.ArgumentParser(description="Refuses each allocation in turn.")
    options.add_argument("--program", default=measure.PROGRAM)
    options.add_argument("--all", action="store_true", help="tries all commands")
    given = options.parse_args()
    program = measure.program_at(given.program)
    tried = commands(program)
    if not given.all:
        tried = testing.by_turns(tried, -(-len(tried) // 3))
    if not shutil.which("gcc"):
        print("skipped: refused allocations: gcc isn't there")
        print(f"0 passed, 0 failed, {len(tried)} skipped")
        return
    with tempfile.TemporaryDirectory() as folder:
        library = measure.compiled("refuse.c", os.path.join(folder, "refuse.so"), "-shared", "-fPIC")
        kept = [keeps_its_word(program, words, text, library) for words, text in tried]
    measure.end(kept)


if __name__ == "__main__":
    main()
