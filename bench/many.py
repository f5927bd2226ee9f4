#!/usr/bin/env python3
"""How many images a second this machine checks: with a process for each image, by the C library in a pool of threads, and by sfi-corpus,
which keeps the verdicts.

    bench/many.py [--program PATH] [--library FILE] [--images N] [--code BYTES] [--jobs N] [--rounds N]

Makes N images (1000) of one sandbox with 64 KiB of accepted code, or as many bytes as --code says, as mixed in images.py, no two
the same, and checks them in these ways:

- by `sfi check --raw`, as `find` and `xargs -P` start it, as many at a time as there are processors;
- by examples/embed/many.c, linked with libsfi_c.a, with a thread for each processor, and with one thread;
- by GNU parallel, which hands the names, 250 at a time, to a process of many.c with one thread for each processor;
- by `sfi-corpus check` into a new database, with a process for each processor, with one, and with one and two workers of a cluster
  of Dask on this machine, of which no processor time is told.

For each it prints images a second and megabytes (10^6) of image a second, by the median of the alternated rounds' wall times, the
processor time of an image, with that of its processes' starts, and the machine's load before: other work takes its share of the rate.

Before that it compares the records of the first two ways (the status and the verdict by name) on the first thousand of these images and on
as many small ones, most of which aren't accepted (odd_images.py), and ends in 1 where any differ. What isn't there is skipped, by name.
"""
import argparse
import collections
import contextlib
import dataclasses
import json
import os
import resource
import shutil
import subprocess
import sys
import tempfile
import time

TOP = os.path.dirname(os.path.dirname(os.path.abspath(__file__)))
sys.dont_write_bytecode = True
sys.path.insert(0, os.path.join(TOP, "tools"))
import libraries
import testing
from suygapid.trials import images, measure, odd_images

LIBRARY = os.path.join(TOP, "crates", "sfi_c", "out", "libsfi_c.a")
CORPUS = os.path.join(TOP, "tools", "sfi-corpus")

# The words of each are the folder, the number at a time, and the program.
BY_PROCESS = """find "$1" -type f -print0 | xargs -0 -P"$2" -n1 sh -c 'exec "$0" check --raw < "$1"' "$3" """
BY_THREADS = """find "$1" -type f -print0 | "$3" "$2" """
BY_PARALLEL = """find "$1" -type f -print0 | parallel --pipe --recend '\\0' --max-args 250 --jobs "$2" "$3" 1"""
RECORDS = """find "$1" -type f -print0 | xargs -0 -P"$2" -n1 sh -c '
    verdict=$("$0" check --raw < "$1" 2>/dev/null); status=$?
    printf "%s\\t%s\\t%s\\0" "$status" "$verdict" "$1"; exit $status' "$3" """
BY_CORPUS = """rm -f "$1.kept"; "$3" check --jobs "$2" --database "$1.kept" "$1" """
BY_CLUSTER = """rm -f "$1.kept"; "$3" check --database "$1.kept" "$1" """
ACCEPTED = "accepted sandboxes=1 bundles={}"
COMPARED = 1000  # images of each kind, at most
ALL_ACCEPTED = "files={0}: {0} accepted, 0 refused, 0 no image, 0 not judged; {0} judged anew"


@dataclasses.dataclass(frozen=True)
class Way:
    """A command, how many it has at a time, the program that it starts, and whether its processes end with it."""
    command: str
    jobs: int
    program: str
    is_whole: bool = True


def write_images(folder, count, code_size):
    """Writes the images, of 16 different codes and each with its number as first data, and says how many bytes each has."""
    os.mkdir(folder)
    kinds = [images.image("mixed", 1, code_size, init=4, seed=seed) for seed in range(min(count, 16))]
    for n in range(count):
        measure.written(os.path.join(folder, f"{n}.img"), kinds[n % len(kinds)][:-4] + n.to_bytes(4, "little"))
    return len(kinds[0])


def write_odd_images(folder, count):
    os.mkdir(folder)
    for seed in range(count):
        measure.written(os.path.join(folder, f"{seed}.img"), odd_images.small_image(seed))


def pool_program(library, folder):
    """The path of examples/embed/many.c, linked with the library; None, and why, where that can't be."""
    for what, is_there, hint in [("gcc", shutil.which("gcc"), ""), (library, os.path.exists(library), ": (cd crates/sfi_c && rt lib)")]:
        if not is_there:
            print(f"skipped: the library in threads: {what} isn't there{hint}")
            return None
    source, include = os.path.join(TOP, "examples", "embed", "many.c"), os.path.join(TOP, "crates", "sfi_c", "include")
    target = os.path.join(folder, "many")
    subprocess.run(["gcc", "-O2", "-pthread", "-I" + include, source, library, "-o", target], check=True)
    return target


def output(command, folder, jobs, program):
    """What the command prints, and its status."""
    done = subprocess.run(["sh", "-c", command, "sh", folder, str(jobs), program], stdout=subprocess.PIPE, check=False)
    return done.stdout, done.returncode


def records(command, folder, jobs, program):
    """The records in the order of their names, and how many there are of each status."""
    found = sorted(output(command, folder, jobs, program)[0].split(b"\0")[:-1], key=lambda record: record.split(b"\t")[2])
    return found, dict(sorted(collections.Counter(record.split(b"\t")[0].decode() for record in found).items()))


def compare(program, pool, folders, jobs):
    """Ends where a process for each image, and the pool of threads, don't say the same of an image."""
    for folder in folders:
        expected, counts = records(RECORDS, folder, jobs, program)
        found, _ = records(BY_THREADS, folder, jobs, pool)
        differ = [pair for pair in zip(expected, found) if pair[0] != pair[1]]
        if not expected or len(expected) != len(found) or differ:
            sys.exit(f"bench: {len(expected)} and {len(found)} records, of which {len(differ)} differ: {differ[:3]}")
        print(f"{len(expected)} images have the same status and verdict in both ways; by status: {counts}", flush=True)


@contextlib.contextmanager
def cluster(python, folder, workers):
    """The path of a program that is sfi-corpus with the scheduler of so many workers, of one thread each."""
    env = {**os.environ, "PYTHONPATH": os.path.join(TOP, "bindings", "python"), "PYTHONDONTWRITEBYTECODE": "1"}
    told, begun = os.path.join(folder, f"cluster{workers}.json"), []

    def start(kind, *words):
        begun.append(subprocess.Popen([python, "-m", f"distributed.cli.dask_{kind}", *words, "--scheduler-file", told, "--no-dashboard"], env=env,
                                      cwd=folder, stdout=subprocess.DEVNULL, stderr=subprocess.DEVNULL))

    try:
        start("scheduler", "--host", "127.0.0.1", "--port", "0")
        for _ in range(workers):
            start("worker", "--nthreads", "1", "--no-nanny")
        while not os.path.exists(told):
            time.sleep(0.1)
        time.sleep(10)  # for the workers
        with open(told, encoding="utf-8") as file:
            address = json.load(file)["address"]
        program = os.path.join(folder, f"corpus{workers}")
        measure.written(program, f'#!/bin/sh\nexec {python} {CORPUS} "$@" --scheduler {address}\n'.encode())
        os.chmod(program, 0o755)
        yield program
    finally:
        for it in reversed(begun):
            it.kill()
            it.wait()


def ways_of(program, pool, jobs, clusters):
    """By their names. `clusters` has programs, by the number of their workers."""
    ways = {"`sfi check --raw`, a process each": Way(BY_PROCESS, jobs, program)}
    if pool:
        ways["library, threads"] = Way(BY_THREADS, jobs, pool)
        ways["library, one thread"] = Way(BY_THREADS, 1, pool)
        ways["sfi-corpus"] = Way(BY_CORPUS, jobs, CORPUS)
        ways["sfi-corpus, one process"] = Way(BY_CORPUS, 1, CORPUS)
    ways |= {f"sfi-corpus, workers of Dask: {workers}": Way(BY_CLUSTER, workers, it, False) for workers, it in clusters.items()}
    if pool and shutil.which("parallel"):
        ways["library, processes of GNU parallel"] = Way(BY_PARALLEL, jobs, pool)
    elif pool:
        print("skipped: GNU parallel isn't there (apt-get install parallel)")
    return ways


def processor_seconds():
    """The processor time, user and system, of all processes that were started and have ended."""
    used = resource.getrusage(resource.RUSAGE_CHILDREN)
    return used.ru_utime + used.ru_stime


def seconds(way, folder, count, verdict):
    """The wall and the processor time of a check of all images, each of which is to have the verdict, which accepts it."""
    begun, used = time.monotonic(), processor_seconds()
    printed, status = output(way.command, folder, way.jobs, way.program)
    taken = time.monotonic() - begun, processor_seconds() - used
    if status != 0 or printed.count(verdict) != count and ALL_ACCEPTED.format(count).encode() not in printed:
        raise SystemExit(f"bench: status {status}, {printed[:200]}")
    return taken


def measure_ways(ways, folder, count, verdict, rounds):
    """Of each way, the wall times in their order, and the processor time of an image."""
    taken = {name: [] for name in ways}
    for _ in range(rounds):
        for name, way in ways.items():
            taken[name].append(seconds(way, folder, count, verdict))
    return {name: (sorted(wall for wall, _ in times), sum(used for _, used in times) / rounds / count) for name, times in taken.items()}


def print_rates(ways, folder, size, count, verdict, rounds):
    load = os.getloadavg()[0]
    print("| checked by | images | bytes of each | at a time | load before | images a second | in the best round | MB/s "
          "| processor time of each |")
    for name, (taken, each) in measure_ways(ways, folder, count, verdict, rounds).items():
        rate, best = count / taken[rounds // 2], count / taken[0]
        cells = [name, count, f"{size:,}", ways[name].jobs, f"{load:.1f}", f"{rate:.0f}", f"{best:.0f}", f"{rate * size / 1e6:.0f}"]
        print("|", " | ".join(str(cell) for cell in cells), f"| {each * 1000:.2f} ms |" if ways[name].is_whole else "| not told |")


def main():
    parser = argparse.ArgumentParser()
    parser.add_argument("--program", default=measure.PROGRAM)
    parser.add_argument("--library", default=LIBRARY)
    parser.add_argument("--images", type=int, default=1000)
    parser.add_argument("--code", type=int, default=65536, metavar="BYTES")
    parser.add_argument("--jobs", type=int, default=os.cpu_count())
    parser.add_argument("--rounds", type=int, default=9)
    options = parser.parse_args()
    program = measure.program_at(options.program)
    with tempfile.TemporaryDirectory() as folder:
        alike, first, odd = (os.path.join(folder, name) for name in ("alike", "first", "odd"))
        size = write_images(alike, options.images, options.code)
        compared = min(options.images, COMPARED)
        pool = pool_program(os.path.abspath(options.library), folder)
        if pool:
            os.environ["SFI_C_LIBRARY"] = libraries.make("sfi_c", os.path.abspath(options.library), folder)[1]
            write_images(first, compared, options.code)
            write_odd_images(odd, compared)
            compare(program, pool, [first, odd], options.jobs)
        python = testing.with_dask()
        if not python:
            print("skipped: workers of Dask: no Python has its distributed (python3-distributed)")
        with contextlib.ExitStack() as stack:
            clusters = {workers: stack.enter_context(cluster(python, folder, workers)) for workers in ((1, 2) if python and pool else ())}
            verdict = ACCEPTED.format(options.code // 16).encode()
            print_rates(ways_of(program, pool, options.jobs, clusters), alike, size, options.images, verdict, options.rounds)


if __name__ == "__main__":
    main()
