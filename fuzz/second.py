#!/usr/bin/env python3
"""Whether tools/second_checker.py, which shares no code with the proved one, says what `sfi check` says, and what
bench/checker.c says of code in bundles.

    fuzz/second.py [--program PATH] [--rounds N] [--seconds S] [--without RULE] [SEED ..]

Each case is an image of the examples, one of random code, or either with changes, as its bytes or as hexadecimal text, now
and then with a fault. Compared are the status and all lines: of `check --report` each finding with its place, its rule and the
instruction, and the verdict. So are all examples, and large images in each format. The checker in C, in both of its ways,
gives the verdicts of the images in bundles, and the findings of the large ones and examples; and its ways are compared on twice
as many odd images. Without a seed the number of commits says which of six it is. `--without V5` drops the findings of that rule
from the second checker's: then it has to fail.
"""
import functools
import itertools
import multiprocessing
import os
import struct
import sys
import tempfile

TOP = os.path.dirname(os.path.dirname(os.path.abspath(__file__)))
sys.dont_write_bytecode = True
sys.path.insert(0, os.path.join(TOP, "tools"))
import commands
import second_checker
import testing
from suygapid.trials import corpus, fuzzing, images, measure, odd_images, odd_words

TEXTS, BYTES, FAULTS = "check --report", "check --raw", "text with a fault"
EXAMPLES, LARGE, KINDS = "examples", "large images", "the kinds of images.py are accepted"
VERDICTS, FINDINGS, WAYS = "verdicts in C", "findings in C", "both ways in C"
IN_C = [VERDICTS, FINDINGS, WAYS]
NAMES = [TEXTS, BYTES, FAULTS, EXAMPLES, LARGE, KINDS]
IN_WORDS = [images.MAGICS[it] for it in odd_words.PIECES]
BATCH = 2000  # cases that are handed out at a time


def expected(data, without=None):
    """The status and the lines of a report by the second checker."""
    status, lines = second_checker.judged(data)
    if without and status == 1:
        lines = [it for it in lines if it.split()[2:3] != [without] and "first=" + without not in it]
    return status, lines


def program_says(program, words, given):
    return tuple(fuzzing.run([program, *words], given))


def image(pick, program):
    choice = pick.random()
    if choice < 0.4:
        return corpus.odd(pick)
    data = corpus.accepted(pick, program)
    return data if choice < 0.5 else corpus.mutant(pick, data)


class CheckerInC:
    """bench/checker.c, compiled in a folder, in both of its ways to class instructions, beside the second checker."""

    def __init__(self, folder, tally):
        self.ways, self.path, self.tally = measure.checkers("checker.c", folder), os.path.join(folder, "images"), tally

    def verdicts(self, way, some):
        """A line of each image, by a process for each thousand, whose file it can hold."""
        lines = []
        for k in range(0, len(some), 1000):
            measure.written(self.path, b"".join(struct.pack("<I", len(data)) + data for data in some[k : k + 1000]))
            lines += fuzzing.output([way, "--many", self.path]).splitlines()
        return lines

    def see_verdicts(self, cases):
        """Compares the verdicts of those images that are in bundles: of each case its name, the image and the verdict's line."""
        cases = [it for it in cases if it[1][:4] not in IN_WORDS]
        for way in self.ways.values():
            found = ([line] for line in self.verdicts(way, [data for _, data, _ in cases]))
            for (self.tally.case, data, verdict), line in itertools.zip_longest(cases, found, fillvalue=("", b"", None)):
                self.tally.see(VERDICTS, verdict, line, data)

    def see_findings(self, data, lines):
        """Compares all findings of an image in bundles with those of a report."""
        wanted = [" ".join(it.split()[:3]) for it in lines[:-1]]
        for way in self.ways.values():
            measure.written(self.path, data)
            self.tally.see(FINDINGS, wanted, fuzzing.output([way, "--list", self.path]).splitlines()[:-1], data)

    def see_ways(self, seed, count):
        """Compares both ways on images that the second checker doesn't see."""
        some = [odd_images.small_image(seed + n) for n in range(count)]
        lines = itertools.zip_longest(some, *(self.verdicts(way, some) for way in self.ways.values()))
        for self.tally.case, (data, switches, table) in enumerate(lines, seed):
            self.tally.see(WAYS, switches or "a line", table, data)


def compared(program, without, case):
    """A case's name, what is compared in it (the comparison, what is wanted, what is found and the image), and the verdict."""
    name, pick = case
    data, choice = image(pick, program), pick.random()
    status, lines = expected(data, without)
    if choice < 0.05:
        text, line = commands.misspelled(pick, data)
        try:
            said = second_checker.image_of(text.encode())
        except second_checker.Fault as fault:
            said = str(fault)
        found = program_says(program, ["check"], text.encode())
        return name, [(FAULTS, (2, [line]), found, data), (FAULTS, line, said, data)], lines[-1:]
    if choice < 0.2:
        return name, [(BYTES, (status, lines[-1:]), program_says(program, ["check", "--raw"], data), data)], lines[-1:]
    text = commands.spelled(pick, data).encode()
    found = program_says(program, ["check", "--report"], text)
    return name, [(TEXTS, expected(second_checker.image_of(text), without), found, data)], lines[-1:]


def kinds(seed):
    """An image of each kind in each format."""
    return [images.image(kind, 1, 16384, 3, format, seed) for kind in images.KINDS for format in images.MAGICS]


def odd_ones(seed):
    """A large image of odd code in each format."""
    in_words, single = odd_words.large_sandboxes(seed), odd_words.large_sandboxes(seed, images.SINGLE)
    longest = in_words[0][0] + odd_words.EBREAK * 31 * 16384  # 2 MiB, which code in words alone may have
    made = [*(odd_images.odd_image(seed, 2, 65536, format) for format in (1, 2)), odd_words.image(in_words), odd_words.image([(longest, [])])]
    return [*made, images.MAGICS[2] + made[-1][4:], odd_words.image(single[:11], images.SINGLE), odd_words.image(single, images.SINGLE)]


def compare_whole(program, without, tally, in_c, seed):
    """Compares each example and each large image."""
    for name, some in ((EXAMPLES, corpus.examples(program)), (KINDS, kinds(seed)), (LARGE, odd_ones(seed))):
        for tally.case, data in enumerate(some):
            status, lines = expected(data, without)
            tally.see(name, (0 if name == KINDS else status, lines), program_says(program, ["check", "--report"], data.hex().encode()), data)
            tally.see(BYTES, (status, lines[-1:]), program_says(program, ["check", "--raw"], data), data)
            if in_c and data[:4] not in IN_WORDS:
                in_c.see_findings(data, lines)
                in_c.see_verdicts([(tally.case, data, lines[-1:])])


def main(words=None):
    parser = fuzzing.options(__doc__, 3000, testing.sample())  # 18,000 in all turns
    parser.add_argument("--without", metavar="RULE", help="drop the findings of this rule from the second checker's")
    given = parser.parse_args(words)
    has_c = fuzzing.has_gcc()
    tally = fuzzing.tally_of(parser, given, NAMES + IN_C * has_c)
    program = measure.program_at(given.program)
    with tempfile.TemporaryDirectory() as folder:
        in_c = CheckerInC(folder, tally) if has_c else None
        if not has_c:
            tally.skip(len(IN_C), "the checker in C beside the second one", "gcc isn't there")
        if given.round is None:
            compare_whole(program, given.without, tally, in_c, given.seeds[0])
        if has_c and given.round is None:
            in_c.see_ways(given.seeds[0], 2 * given.rounds)
        compare_cases(program, given, tally, in_c)
    return tally.end()


def compare_cases(program, given, tally, in_c):
    all_cases = fuzzing.cases(given)
    with multiprocessing.Pool() as pool:
        while batch := list(itertools.islice(all_cases, BATCH)):
            seen = []
            for tally.case, rows, verdict in pool.imap(functools.partial(compared, program, given.without), batch, chunksize=50):
                for row in rows:
                    tally.see(*row)
                seen.append((tally.case, rows[0][3], verdict))
            if in_c:
                in_c.see_verdicts(seen)


if __name__ == "__main__":
    sys.exit(main())
