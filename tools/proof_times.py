#!/usr/bin/env python3
"""Tells where the time of a crate's last check went, by function and by kind of module.

    tools/proof_times.py CRATE.. [--top N]

`rt check` keeps each module that it checked as a file of crates/CRATE/out/incremental, written when the module was done.
So the time between a file and the one before it is that of its module, as far as one module was checked at a time: run
`rm -r out; rt check --jobs 1` in the crate's folder first. The first module of a function also has the time in which the
libraries below were loaded for it.
"""
import argparse
import collections
import os
import sys

TOP = os.path.dirname(os.path.dirname(os.path.abspath(__file__)))
ENDING = ".oantt"


def modules(crate):
    """The modules of the crate's last check in the order in which they were done, each with its time in seconds."""
    folder = os.path.join(TOP, "crates", crate, "out", "incremental")
    files = []
    for build in os.scandir(folder) if os.path.isdir(folder) else []:
        for file in os.scandir(build.path):
            if file.name.endswith(ENDING):
                files.append((file.stat().st_mtime, file.name[: -len(ENDING)]))
    files.sort()
    return [(done - before, name) for (before, _), (done, name) in zip(files, files[1:])]


def tell(title, times, top):
    print(f"  by {title}")
    for name, seconds in times.most_common(top):
        print(f"  {seconds:8.1f} {name}")


def main():
    parser = argparse.ArgumentParser(description=__doc__, formatter_class=argparse.RawDescriptionHelpFormatter)
    parser.add_argument("crates", nargs="+", metavar="CRATE")
    parser.add_argument("--top", type=int, default=15, metavar="N", help="how many lines of each table")
    options = parser.parse_args()
    for crate in options.crates:
        times = modules(crate)
        if not times:
            print(f"proof_times.py: {crate} has no work of a check in out/incremental", file=sys.stderr)
            return 1
        functions = collections.Counter()
        kinds = collections.Counter()
        for seconds, name in times:
            function, _, kind = name.rpartition(".")
            functions[function] += seconds
            kinds[kind] += seconds
        print(f"{crate}: {len(times) + 1} modules, {sum(seconds for seconds, _ in times):.1f} s")
        tell("function", functions, options.top)
        tell("kind", kinds, options.top)
    return 0


if __name__ == "__main__":
    sys.exit(main())
