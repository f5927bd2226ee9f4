"""How programs are run and measured, and what bench/ has in C for that."""
import os
import re
import subprocess
import sys

from suygapid import TOP

BENCH = os.path.join(TOP, "bench")
PROGRAM = os.path.join(TOP, "crates", "sfi", "out", "sfi")


def program_at(path):
    """That program, where it is built."""
    if not os.access(path, os.X_OK):
        sys.exit(f"bench: no program {path}: run ./sfi check <examples/smallest.hex first")
    return os.path.abspath(path)


def end(passed):
    """Prints how many of the comparisons have passed, in the last line that ./test reads, and ends."""
    print(f"{passed.count(True)} passed, {passed.count(False)} failed")
    sys.exit(not all(passed))


def compiled(source, target, *options):
    """The path of what gcc -O2 makes of a C source, of bench/ if no other folder is named."""
    subprocess.run(["gcc", "-O2", *options, "-o", target, os.path.join(BENCH, source)], check=True)
    return target


def checkers(source, folder):
    """By name, the paths of a checker in C, in both of its ways to classify instructions."""
    ways = {"C, switches": [], "C, class table": ["-DCLASS_TABLE"]}
    path = os.path.join(BENCH, "checker.c") if source == "checker.c" else os.path.abspath(source)
    return {name: compiled(path, os.path.join(folder, name), *options) for name, options in ways.items()}


def written(path, data):
    """The path of a new file with these bytes."""
    with open(path, "wb") as file:
        file.write(data)
    return path


def contents(path):
    with open(path, "rb") as file:
        return file.read()


def run(words, path):
    """What a program prints when it reads that file, where that is text, and the seconds of processor time that it takes."""
    with open(path, "rb") as file:
        process = subprocess.Popen(words, stdin=file, stdout=subprocess.PIPE, stderr=subprocess.DEVNULL)
        output = process.stdout.read()
        _, status, usage = os.wait4(process.pid, 0)
        process.returncode = os.waitstatus_to_exitcode(status)
    return output.decode(errors="replace"), usage.ru_utime + usage.ru_stime


def times(commands, rounds):
    """For each name of a command, words and a file, its times from the least on: `rounds` times the commands are run one after another."""
    taken = {name: [] for name in commands}
    for _ in range(rounds):
        for name, (words, path) in commands.items():
            taken[name].append(run(words, path)[1])
    return {name: sorted(each) for name, each in taken.items()}


def medians(commands, rounds):
    """The median of each command's times."""
    return {name: each[rounds // 2] for name, each in times(commands, rounds).items()}


def leasts(commands, rounds):
    """The least of each command's times: of many runs, that which other work on the machine disturbed least."""
    return {name: each[0] for name, each in times(commands, rounds).items()}


def instructions(words, path):
    """How many x86 instructions a program executes when it reads that file."""
    tool = ["valgrind", "--tool=callgrind", "--callgrind-out-file=/dev/null"]
    with open(path, "rb") as file:
        done = subprocess.run(tool + words, stdin=file, stdout=subprocess.DEVNULL, stderr=subprocess.PIPE, check=False)
    return int(re.search(rb"Collected : (\d+)", done.stderr).group(1))


def instructions_and_misses(words, path):
    """The same, and how many branches its simple model of a processor guesses wrong, by a condition or to a place in a register."""
    tool = ["valgrind", "--tool=callgrind", "--branch-sim=yes", "--callgrind-out-file=/dev/null"]
    with open(path, "rb") as file:
        done = subprocess.run(tool + words, stdin=file, stdout=subprocess.DEVNULL, stderr=subprocess.PIPE, check=False)
    executed, _, conditional, _, indirect = re.search(rb"Collected : (\d+) (\d+) (\d+) (\d+) (\d+)", done.stderr).groups()
    return int(executed), int(conditional) + int(indirect)


def peak(words, path):
    """The most KiB of memory that a program has resident when it reads that file, by GNU time: Python's own would be counted in its child's."""
    with open(path, "rb") as file:
        tool = ["/usr/bin/time", "-f", "%M"]
        done = subprocess.run(tool + words, stdin=file, stdout=subprocess.DEVNULL, stderr=subprocess.PIPE, check=False)
    return int(done.stderr.split()[-1])
