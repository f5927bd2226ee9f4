#!/usr/bin/env python3
"""Runs `rt ci`, and lets it try all must-fail edits, or none: those that are due are tried by tools/edits.py afterwards.

    tools/gate.py [--all]
    tools/gate.py --times     # what the parts of the last ./test took

Every crate, test and program is proved and run each time. By `rt ci` all edits take three fifths of the time of all, half of it
for one more check of each crate that has any.

The edits that are left out wait in git's own folder, or in out/ where there is none, while `rt ci` runs, and are put back however it ends. What a killed
run left there is put back by the next.

What `rt ci` printed goes to out/ci.log, too, below the hashes of all crates' sources as they were when it began: where it took
nothing that earlier runs kept, a release has it (tools/release.py).
What it and its parts took goes to out/times.txt, one a line: `took SECONDS PROCESSOR PART`, where PROCESSOR is the seconds of all
processors; and as `at SECONDS STEP CRATE` how long after it began `rt ci` said that a crate or its tests are proved, or that its
edits are begun. `./test` adds its scripts.
"""
import argparse
import glob
import os
import re
import signal
import subprocess
import sys
import time

sys.dont_write_bytecode = True
import crate_hashes

TOP = os.path.dirname(os.path.dirname(os.path.abspath(__file__)))
TIMES = os.path.join("out", "times.txt")
LOG = os.path.join("out", "ci.log")
# What `rt ci` says of a crate while it proves, and what it says first once it has proved all and tried all edits.
STEPS = {
    "proof": re.compile(r"rt: (\w+) (?:proved$|is kept: )"),
    "tests": re.compile(r"rt: (\w+): its tests are proved$"),
    "edits": re.compile(r"rt: (\w+): trying its must-fail edits "),
}
JUDGED = re.compile(r"rt: (?:must-fail |\w+: \d+ of its \d+ must-fail edits were tried|\w+ ran|\w+: its tests (?:passed|FAILED))")


def all_edits():
    """The must-fail edits of all crates, by their paths from the top on."""
    return sorted(glob.glob("crates/*/must-fail/*.edit"))


def git_folder():
    """Git's own folder here, or nothing where there is none."""
    ran = subprocess.run(["git", "rev-parse", "--absolute-git-dir"], stdout=subprocess.PIPE, stderr=subprocess.DEVNULL, text=True, check=False)
    return ran.stdout.strip() if ran.returncode == 0 else ""


def put_back(aside):
    """Moves what waits in a folder back to where it was."""
    for folder, _, files in os.walk(aside):
        for name in files:
            path = os.path.join(folder, name)
            home = os.path.relpath(path, aside)
            os.makedirs(os.path.dirname(home), exist_ok=True)
            os.replace(path, home)


def set_aside(edits, aside):
    """Moves edits to a folder, in which each keeps its path from the top on."""
    for edit in edits:
        os.makedirs(os.path.join(aside, os.path.dirname(edit)), exist_ok=True)
        os.replace(edit, os.path.join(aside, edit))


def processor_seconds(process):
    """Those of a process and of what it has waited for, as Linux counts them."""
    with open(f"/proc/{process.pid}/stat", encoding="utf-8") as file:
        fields = file.read().rpartition(")")[2].split()
    return sum(map(int, fields[11:15])) / os.sysconf("SC_CLK_TCK")


def run_timed(file, log):
    """Runs `rt ci`, prints what it says, and to the file `log`, writes to `file` what its parts took, and gives its status."""
    begun, judged = time.monotonic(), None
    with subprocess.Popen(["rt", "ci"], stdout=subprocess.PIPE, stderr=subprocess.STDOUT) as process:
        try:
            for raw in process.stdout:
                sys.stdout.buffer.write(raw)
                sys.stdout.flush()
                log.write(raw)
                line, now = raw.decode(errors="replace").rstrip("\n"), time.monotonic() - begun
                for step, form in STEPS.items():
                    if found := form.match(line):
                        print(f"at {now:.0f} {step} {found[1]}", file=file, flush=True)
                if judged is None and JUDGED.match(line):
                    judged = now, processor_seconds(process)
            os.waitid(os.P_PID, process.pid, os.WEXITED | os.WNOWAIT)
            ended = time.monotonic() - begun, processor_seconds(process)
        except BaseException:
            process.kill()
            raise
    rows = [("rt ci", ended)]
    if judged is not None:
        rows += [("rt ci: proofs and edits", judged), ("rt ci: tests and programs", [it - before for it, before in zip(ended, judged)])]
    for what, (seconds, processor) in rows:
        print(f"took {seconds:.0f} {processor:.0f} {what}", file=file)
    return process.returncode


def run_without(edits, aside):
    """Runs `rt ci` while these edits are in the folder `aside`, and gives its status."""
    os.makedirs(os.path.dirname(TIMES), exist_ok=True)
    try:
        set_aside(edits, aside)
        with open(TIMES, "w", encoding="utf-8") as file, open(LOG, "wb") as log:
            log.writelines(f"{it}\n".encode() for it in crate_hashes.lines())
            log.flush()
            return run_timed(file, log)
    finally:
        put_back(aside)


def print_times():
    """Prints what out/times.txt holds as two tables, the dearest part first, and gives the status."""
    if not os.path.exists(TIMES):
        print(f"gate.py: {TIMES} isn't there: ./test writes it", file=sys.stderr)
        return 1
    with open(TIMES, encoding="utf-8") as file:
        rows = [it.rstrip("\n").split(" ", 3) for it in file]
    steps = {}
    for kind, seconds, step, crate in rows:
        if kind == "at":
            steps.setdefault(crate, {})[step] = seconds
    print(" proof  tests  edits  crate: after how many seconds of `rt ci` it and its tests were proved, and its edits begun")
    for crate, found in sorted(steps.items(), key=lambda it: (max(map(int, it[1].values())), it[0])):
        print("".join(f"{found.get(it, ''):>6} " for it in STEPS), crate)
    print("seconds  of processors  part")
    for _, seconds, processor, what in sorted((it for it in rows if it[0] == "took"), key=lambda it: -int(it[2])):
        print(f"{seconds:>7}  {processor:>13}  {what}")
    return 0


def main():
    parser = argparse.ArgumentParser(description=__doc__, formatter_class=argparse.RawDescriptionHelpFormatter)
    parser.add_argument("--all", action="store_true", help="tries all edits")
    parser.add_argument("--times", action="store_true", help="runs nothing, and prints what the parts of the last run took")
    options = parser.parse_args()
    os.chdir(TOP)
    if options.times:
        return print_times()
    signal.signal(signal.SIGTERM, lambda number, _: sys.exit(128 + number))
    aside = os.path.join(git_folder() or "out", "sfi-edits")
    put_back(aside)
    return run_without([] if options.all else all_edits(), aside)


if __name__ == "__main__":
    sys.exit(main())
