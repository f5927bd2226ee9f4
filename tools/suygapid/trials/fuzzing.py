"""What the scripts of fuzz/ share: their options, how a program is run, and what is counted and printed."""
import argparse
import collections
import itertools
import random
import shutil
import subprocess
import time

from suygapid.trials import measure

SHOWN = 3  # how many cases of each comparison that differ are printed, with what repeats them
MOST_SECONDS = 120  # of one command


def options(about, rounds, seed=0):
    """A parser with the options that all scripts have."""
    parser = argparse.ArgumentParser(description=about, formatter_class=argparse.RawDescriptionHelpFormatter)
    parser.add_argument("seeds", nargs="*", type=int, default=[seed], metavar="SEED", help=f"each makes cases of its own ({seed})")
    parser.add_argument("--rounds", type=int, default=rounds, help=f"cases of each seed ({rounds})")
    parser.add_argument("--round", type=int, help="the case of this number alone, to see a failure again")
    parser.add_argument("--seconds", type=float, default=0, help="go on with further seeds for so long")
    parser.add_argument("--program", default=measure.PROGRAM, help="the program sfi")
    return parser


def tally_of(parser, given, names):
    """A tally that asks for each of these comparisons, where no fewer cases were asked for than make them."""
    is_whole = given.round is None and given.rounds >= parser.get_default("rounds")
    return Tally(*(names if is_whole else []))


def cases(given):
    """For each case the seed and number that repeat it, and its source of random numbers."""
    begun, further = time.monotonic(), itertools.count(given.seeds[-1] + 1)
    numbers = range(given.rounds) if given.round is None else [given.round]
    for position, seed in enumerate(itertools.chain(given.seeds, further)):
        if position >= len(given.seeds) and time.monotonic() - begun >= given.seconds:
            return
        print(f"seed {seed}", flush=True)
        yield from ((f"{seed} --round {n}", random.Random(f"{seed}/{n}")) for n in numbers)


class Ended(collections.namedtuple("Ended", "status lines")):
    """How a command ended, and the lines that it printed. A negative status is that of a signal."""


def run(words, given=b""):
    try:
        done = subprocess.run(words, input=given, stdout=subprocess.PIPE, stderr=subprocess.DEVNULL, check=False,
                              timeout=MOST_SECONDS)
    except subprocess.TimeoutExpired:
        return Ended(None, [f"no end after {MOST_SECONDS} seconds"])
    return Ended(done.returncode, done.stdout.decode(errors="replace").splitlines())


def output(words, given=b""):
    return subprocess.run(words, input=given, stdout=subprocess.PIPE, check=False).stdout.decode()


class Tally:
    """Counts what is compared, by the comparison's name. Each comparison is a test: it has failed where a case differs, or
    where there was none."""

    def __init__(self, *names):
        self.compared = dict.fromkeys(names, 0)
        self.wrong = collections.Counter()
        self.skipped = 0
        self.case = ""

    def see(self, name, expected, found, image=b""):
        self.compared[name] = self.compared.get(name, 0) + 1
        if expected == found:
            return True
        self.wrong[name] += 1
        if self.wrong[name] <= SHOWN:
            print(f"DIFFERS {name}, seed {self.case}\n  wanted {str(expected)[:600]}\n  found  {str(found)[:600]}")
            if image:
                print(f"  image  {image.hex() if len(image) < 3000 else f'of {len(image)} bytes'}", flush=True)
        return False

    def skip(self, count, what, why):
        self.skipped += count
        print(f"skipped: {what}: {why}")

    def end(self):
        """Prints the counts and the last line, and gives the status."""
        failed = 0
        for name, count in self.compared.items():
            print(f"{name}: {count} compared, {self.wrong[name]} differ")
            failed += count == 0 or self.wrong[name] > 0
        passed = len(self.compared) - failed
        print(f"{passed} passed, {failed} failed" + (f", {self.skipped} skipped" if self.skipped else ""))
        return 1 if failed else 0


def all_skipped(count, what, why):
    """Prints that nothing was tried, and gives the status."""
    tally = Tally()
    tally.skip(count, what, why)
    return tally.end()


def has_gcc():
    return shutil.which("gcc") is not None
