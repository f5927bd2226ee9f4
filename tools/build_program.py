#!/usr/bin/env python3
"""Proves the libraries that the program sfi stands on, side by side, and then proves and builds the program.

    tools/build_program.py > LOG

LOG gets all that rt prints. Standard error gets a line for each library that is proved, and, where one fails, the lines
that say why. RT_JOBS in the environment says how many processors to use.

`rt run` alone would prove one library after another. `rt all check` proves them side by side, but reads all sources once
more before the first proof, and proves the program's own crate once more before it is built. So this hands the libraries to
the scheduler that `rt ci` has (`in_lanes`): those with the longest chain of others behind them go first, and a library gets
the processors that no other waits for.
"""
import copy
import os
import re
import signal
import subprocess
import sys
import tempfile
import time

sys.dont_write_bytecode = True
import toolchain

PROGRAM = os.path.join(toolchain.TOP, "crates", "sfi")
EXAMPLE = os.path.join(toolchain.TOP, "examples", "smallest.hex")
ACCEPTED = "accepted sandboxes=1 bundles=16\n"
MEMORY = 3_000_000_000  # what a library's proofs take, at most
TELLING = re.compile(r"^(note: )?[^ ]+:\d+:\d+:|(^| )error(\[|:)|^fn .*: (not proved|no proof)|^rt: (?!chose)")


def say(text):
    print(f"sfi: {text}", file=sys.stderr, flush=True)


def tell_reason(name, said):
    """Tells why a crate failed: by the lines with an error, or else by the last lines."""
    lines = said.splitlines()
    for line in ([it for it in lines if TELLING.search(it)] or lines)[-12:]:
        print(line[:400], file=sys.stderr)
    say(f"{name} failed, as the lines above say")


class Build:
    """A build of these crates: the libraries and the program."""

    def __init__(self, crates):
        self.crates, self.proved, self.begun = crates, 0, time.monotonic()

    def seconds(self):
        return f"{time.monotonic() - self.begun:.0f} s"

    def library(self, crate, given, jobs):
        """Proves and builds a library whose lower ones are built, and gives whether it could."""
        if not all(given[lower.name, "proof"] for lower in crate.below()):
            return False
        crate = copy.copy(crate)
        with tempfile.TemporaryFile("w+", errors="replace") as crate.out:
            os.makedirs(f"{crate.folder}/out", exist_ok=True)
            status = crate.build_rlib(["--jobs", str(jobs)], anew=False)
            crate.out.seek(0)
            said = crate.out.read()
        print(f"== {crate.name}\n{said}", end="", flush=True)
        if status:
            tell_reason(crate.name, said)
        else:
            self.proved += 1
            say(f"{crate.name} is proved ({self.proved} of {len(self.crates) + 1} crates, {self.seconds()})")
        return status == 0

    def libraries(self, rt):
        """Proves and builds all libraries, and gives whether it could."""
        tasks = {}
        for crate in self.crates:
            below = [(lower.name, "proof") for lower in crate.below()]
            call = lambda given, jobs, crate=crate: self.library(crate, given, jobs)
            tasks[crate.name, "proof"] = (below, crate.count(rb"\n"), MEMORY, call)
        return all(rt.in_lanes(tasks).values())

    def program(self):
        """Proves and builds the program, tries it on an image, and gives whether it accepted that."""
        say(f"proving the program's own crate, and building it ({self.seconds()})")
        with open(EXAMPLE, "rb") as image:
            ran = subprocess.run(["rt", "run", "--", "check"], cwd=PROGRAM, stdin=image, text=True, errors="replace",
                                 stdout=subprocess.PIPE, stderr=subprocess.PIPE, check=False)
        print(f"== sfi\n{ran.stderr}{ran.stdout}", end="", flush=True)
        if ran.stdout != ACCEPTED:
            tell_reason("sfi", f"{ran.stderr}rt: of examples/smallest.hex the program said: {ran.stdout}")
        return ran.stdout == ACCEPTED


def main():
    signal.signal(signal.SIGINT, signal.SIG_DFL)  # Python's own handler would wait for what was started
    rt = toolchain.sharing_rt()
    rt.rtlib.guarded()  # what it starts ends with it
    crates = rt.rtlib.Crate(PROGRAM, toolchain.TOP, {}).below()
    held = rt.rtlib.lock(crates)
    build = Build(crates)
    is_proved = build.libraries(rt)
    for lock in held:
        os.close(lock)
    return 0 if is_proved and build.program() else 1


if __name__ == "__main__":
    sys.exit(main())
