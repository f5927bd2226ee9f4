#!/usr/bin/env python3
"""What data that a sandbox doesn't use cost a host in C: a load, an instance of a module and a reset, by the size of the data.

    bench/sizes.py [--library LIBRARY] [--times N] [--at ADDRESS]

Each image has one sandbox with 256 bytes of code, and 16 KiB of first data that aren't zeros; all else of its data is zeros. The
times are the least of five differences of two runs; the memory is what one instance more makes resident. The data lie at ADDRESS,
40000000 if it isn't given. The library is built by (cd crates/sfi_run && rt lib); it wants gcc with glibc 2.33 or newer.
"""
import argparse
import os
import sys
import tempfile

TOP = os.path.dirname(os.path.dirname(os.path.abspath(__file__)))
sys.dont_write_bytecode = True
sys.path.insert(0, os.path.join(TOP, "tools"))
import libraries
from suygapid.image.layout import MAGICS, WORDS, Part, spelled
from suygapid.trials import measure
from world_counts import run

SIZES = [1, 16, 256, 1024]
USED = bytes(range(1, 129)) * 128


def image(megabytes, at):
    """The bytes of an image with that much data."""
    code = b"\x02\x90" * 128  # c.ebreak
    return spelled(MAGICS[WORDS], [Part(0x10000, code, at, megabytes << 20, 0x10000, init=USED)])


class Host:
    """world_counts.c on an image of each size, which are files of a folder."""

    def __init__(self, library, folder, at):
        self.host, self.folder = os.path.join(folder, "worlds"), folder
        static, _ = libraries.make("sfi_run", library, folder)
        includes = [f"-I{TOP}/crates/{crate}/include" for crate in ("sfi_run", "sfi_c")]
        run("gcc", "-O2", *includes, os.path.join(measure.BENCH, "world_counts.c"), static, "-o", self.host)
        for size in SIZES:
            measure.written(self.image(size), image(size, at))

    def image(self, size):
        return os.path.join(self.folder, str(size))

    def words(self, size, what, times):
        return [self.host, self.image(size), what, str(times), "0"]

    def microseconds(self, size, what, times):
        """The processor time of what is done once."""
        least = measure.leasts({n: (self.words(size, what, n), os.devnull) for n in (2 * times, times)}, 5)
        return (least[2 * times] - least[times]) / times * 1e6

    def resident(self, size):
        """The resident KiB of one instance more."""
        found = [int(run(*self.words(size, "resident", times)).stdout) for times in (8, 4)]
        return (found[0] - found[1]) / 4 / 1024


def main():
    parser = argparse.ArgumentParser(description=__doc__.split("\n", maxsplit=1)[0])
    parser.add_argument("--library", default=libraries.built("sfi_run"))
    parser.add_argument("--times", type=int, default=2000)
    parser.add_argument("--at", type=lambda text: int(text, 16), default=0x40000000)
    options = parser.parse_args()
    with tempfile.TemporaryDirectory() as folder:
        host = Host(options.library, folder, options.at)
        print("MiB of data    load   instance      reset   resident")
        for size in SIZES:
            times = [host.microseconds(size, what, options.times) for what in ("load", "instance", "zero")]
            print(f"{size:11} " + " ".join(f"{each:7.1f} us" for each in times) + f" {host.resident(size):6.0f} KiB")


if __name__ == "__main__":
    main()
