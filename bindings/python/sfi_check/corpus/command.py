"""Judges any number of images, on all processors of this machine or on a Dask cluster, and keeps the verdicts in a database, so that
the same command, given again, judges what is new alone, and goes on where it was interrupted.

    sfi-corpus check [--database FILE] [--jobs N | --scheduler ADDRESS [--send]] FILE|FOLDER ..
    sfi-corpus seeds [--database FILE] [--jobs N | --scheduler ADDRESS] [--first SEED] --count N [--seconds S] COMMAND ..
    sfi-corpus merge DATABASE OTHER ..
    sfi-corpus report [--database FILE] [--json FILE] [--parquet FILE] [--page FILE]

`check` ends in the highest status of its files, as sfi-check does; `seeds` in 1 where a case differs. Otherwise the status is 0; 3
where the words don't parse, 5 where the database, a file or the cluster fails, and 130 when it is interrupted.
"""
from __future__ import annotations

import argparse
import importlib.util
import itertools
import os
import re
import shlex
import sqlite3
import sys
from collections import Counter
from collections.abc import Callable, Iterable, Iterator, Sequence
from typing import Any, Optional, TypeVar

from .. import Judged, built_words
from ..command import Parser, add_version
from . import engine, files, report, seeds
from .store import Store, Wrong

DATABASE = "corpus.sqlite"
NOT_DONE, INTERRUPTED = 5, 130
SECONDS = 3600  # the most of a case
MOST_SECONDS, MOST_JOBS = 1000000, 1024
SEEDS = range(-(1 << 63), 1 << 63)  # what the database can hold
SKIPPED = re.compile(r"^\d+ passed, .*[1-9]\d* skipped$", re.MULTILINE)  # as the last lines of this repository's scripts tell it
Result = TypeVar("Result")


def number(text: str) -> int:
    if not text.isdigit() or not int(text):
        raise argparse.ArgumentTypeError(f"{text!r} is no number from 1 on")
    return int(text)


def jobs(text: str) -> int:
    if number(text) > MOST_JOBS:
        raise argparse.ArgumentTypeError(f"{text} is above {MOST_JOBS}")
    return int(text)


def seconds(text: str) -> float:
    if not 0 < float(text) <= MOST_SECONDS:
        raise argparse.ArgumentTypeError(f"{text} is not above 0 and at most {MOST_SECONDS}")
    return float(text)


def _add_place_of_work(parser: argparse.ArgumentParser) -> None:
    where = parser.add_mutually_exclusive_group()
    where.add_argument("--jobs", type=jobs, default=len(os.sched_getaffinity(0)), metavar="N",
                       help="as many at a time on this machine; one for each processor if absent")
    where.add_argument("--scheduler", metavar="ADDRESS", help="of a Dask cluster, as tcp://HOST:8786, whose workers have this package")


def parsed(words: Optional[Sequence[str]]) -> argparse.Namespace:
    parser = Parser(prog="sfi-corpus", description="Judges any number of images, and keeps the verdicts.", allow_abbrev=False)
    add_version(parser)
    kinds = parser.add_subparsers(dest="kind", required=True, metavar="check|seeds|merge|report")
    check, by_seeds = kinds.add_parser("check", help="judges files"), kinds.add_parser("seeds", help="runs a command for each seed")
    merge, told = kinds.add_parser("merge", help="takes what other databases have"), kinds.add_parser("report", help="shows a database")
    for it in (check, by_seeds, told):
        it.add_argument("--database", default=DATABASE, metavar="FILE", help=f"{DATABASE} if absent")
    for it in (check, by_seeds):
        _add_place_of_work(it)
    check.add_argument("--send", action="store_true", help="sends the cluster the images' bytes, where it can't read the files")
    check.add_argument("files", nargs="+", metavar="FILE|FOLDER", help="images' own bytes")
    by_seeds.add_argument("--first", type=int, default=1, metavar="SEED", help="the first seed; 1 if absent")
    by_seeds.add_argument("--count", type=number, required=True, metavar="N", help="how many seeds")
    by_seeds.add_argument("--seconds", type=seconds, default=SECONDS, metavar="S", help=f"the most of a case; {SECONDS} if absent")
    by_seeds.add_argument("words", nargs=argparse.REMAINDER, metavar="COMMAND", help=f"with {seeds.PLACE} for the seed, or the seed at its end")
    merge.add_argument("database", metavar="DATABASE", help="what gets all")
    merge.add_argument("others", nargs="+", metavar="OTHER")
    for name in ("json", "parquet", "page"):
        told.add_argument(f"--{name}", metavar="FILE", help=f"where to write {'an HTML page' if name == 'page' else name}")
    options = parser.parse_args(words)
    options.words = options.words[1:] if options.kind == "seeds" and options.words[:1] == ["--"] else getattr(options, "words", [])
    if options.kind == "seeds" and not options.words:
        parser.error("a COMMAND is wanted")
    if options.kind == "seeds" and not (options.first in SEEDS and options.first + options.count - 1 in SEEDS):
        parser.error("a seed is at least -2^63 and below 2^63")
    return options


def shown(results: Iterable[Result], total: int, count: Callable[[Result], int], unit: str) -> Iterator[Result]:
    """The same results, with a bar where standard error is a terminal."""
    if not sys.stderr.isatty():
        yield from results
        return
    if not importlib.util.find_spec("tqdm"):
        print("sfi-corpus: a bar wants tqdm, which Debian has as python3-tqdm", file=sys.stderr)
        yield from results
        return
    from tqdm import tqdm

    with tqdm(total=total, unit=unit) as bar:
        for result in results:
            yield result
            bar.update(count(result))


# ---- the subcommands


def check(store: Store, options: argparse.Namespace) -> int:
    """The highest status of the files."""
    built = built_words()
    names = list(files.found(options.files))
    unread: list[Judged] = []
    failed: list[Judged] = []  # the first of those that aren't judged
    jobs = files.batches(names, lambda some: store.known(some, built))
    if options.send:
        jobs = files.with_bytes(jobs, unread.append)
    counts: Counter[int] = Counter()
    fresh = 0

    def keep(judged: list[Judged]) -> None:
        store.add(judged, built)
        counts.update(it.status for it in judged)
        failed.extend(itertools.islice((it for it in judged if it.failure), 1 - len(failed)))

    answers = engine.results(files.judged, jobs, options.jobs, options.scheduler)
    for answer in shown(answers, len(names), lambda it: len(it.judged), "file"):
        if answer.built != built:
            raise engine.Failed(f"a worker has a checker of {answer.built}, and not of {built}")
        keep(answer.judged)
        fresh += sum(it.verdict is not None for it in answer.judged)
    keep(unread)
    said = ", ".join(f"{counts[status]} {word}" for status, word in enumerate(report.WORDS))
    lacking = sum(counts.values()) - sum(counts[it] for it in range(3))
    print(f"files={len(names)}: {said}, {lacking} not judged; {fresh} judged anew by {built}")
    for it in failed:
        more = f", and {lacking - 1} more" if lacking > 1 else ""
        advice = ": workers read files by these names, unless --send sends the bytes" if options.scheduler and not options.send else ""
        print(f"sfi-corpus: not judged: {it.file!r}: {it.failure}{more}{advice}", file=sys.stderr)
    return max(counts, default=0)


def by_seeds(store: Store, options: argparse.Namespace) -> int:
    built, command = built_words(), shlex.join(options.words)
    wanted = range(options.first, options.first + options.count)
    done = {it for it in store.done(command, built) if it in wanted}
    due = options.count - len(done)
    cases = (seeds.Case(tuple(options.words), seed, options.seconds) for seed in wanted if seed not in done)
    differ = skipped = 0
    for ended in shown(engine.results(seeds.run, cases, options.jobs, options.scheduler), due, lambda _: 1, "seed"):
        if ended.status != seeds.NOT_RUN:  # which is tried anew
            store.add_seed(command, ended)
        if ended.status:
            differ += 1
            print(f"seed {ended.seed} ended in status {ended.status} after {ended.seconds:.1f} s", flush=True)
        skipped += SKIPPED.search(ended.output) is not None
    print(f"{due} seeds run, {differ} differ, {len(done)} known from before" + (f"; {skipped} skipped a part" if skipped else ""))
    return 1 if differ else 0


def merge(store: Store, options: argparse.Namespace) -> int:
    for other in options.others:
        store.merge(other)
    return 0


def told(store: Store, options: argparse.Namespace) -> int:
    writers: dict[str, Callable[[Store, str], None]] = {"json": report.write_json, "parquet": report.write_parquet, "page": report.write_page}
    for name, write in writers.items():
        path: Any = getattr(options, name)
        if path:
            write(store, path)
    for built, status, rule, fault, count in store.counts():
        first = f" first=V{rule}" if rule else f" fault={report.FAULTS[fault]}" if fault else ""
        print(f"{count} {report.WORDS[status]}{first} {built}")
    return 0


def main(words: Optional[Sequence[str]] = None) -> int:
    options = parsed(words)
    does = {"check": check, "seeds": by_seeds, "merge": merge, "report": told}[options.kind]
    try:
        with Store(options.database, reads=options.kind == "report") as store:
            return does(store, options)
    except KeyboardInterrupt:
        print(f"sfi-corpus: interrupted; {options.database} has what was done, and the same command goes on", file=sys.stderr)
        return INTERRUPTED
    except sqlite3.Error as error:
        print(f"sfi-corpus: {options.database}: {error}", file=sys.stderr)
        return NOT_DONE
    except (engine.Failed, Wrong, OSError) as error:
        print(f"sfi-corpus: {error}", file=sys.stderr)
        return NOT_DONE
