"""Tests of tools/gate.py, over a small repository and a command rt of their own, and of tools/side_by_side.sh."""
import os
import shutil
import subprocess
import tempfile
import unittest

from toolchain import TOP

EDITS = {"low": ["one.edit", "two.edit"], "high": ["four.edit"], "bare": []}
# Says what `rt ci` says of crates, prints the edits that it sees, as `rt ci` tries them, and ends in status 3.
RT = """#!/bin/sh
echo "rt: low is kept: an earlier run on this machine proved the same files over the same libraries"
echo "rt: middle proved"
sleep ${PAUSE:-0}
echo "rt: middle: its tests are proved"
echo "rt: middle: trying its must-fail edits (1)"
echo "rt: high NOT PROVED"
i=0; while [ $i -lt ${COUNT:-0} ]; do i=$((i + 1)); done
sleep ${PAUSE:-0}
echo "rt: middle: its tests passed"
ls crates/*/must-fail/*.edit 2>/dev/null
exit 3
"""

# What it prints where there are no edits.
SAID = """rt: low is kept: an earlier run on this machine proved the same files over the same libraries
rt: middle proved
rt: middle: its tests are proved
rt: middle: trying its must-fail edits (1)
rt: high NOT PROVED
rt: middle: its tests passed
"""


def written(path, text):
    os.makedirs(os.path.dirname(path), exist_ok=True)
    with open(path, "w", encoding="utf-8") as file:
        file.write(text)


class Gate(unittest.TestCase):
    def setUp(self):
        room = tempfile.TemporaryDirectory()
        self.addCleanup(room.cleanup)
        self.top = os.path.join(room.name, "repository")
        written(f"{self.top}/crates.txt", "# a comment: none\n" + "".join(f"{it}:\n" for it in EDITS))
        for crate, edits in EDITS.items():
            written(f"{self.top}/crates/{crate}/src/lib.rt", "//! A crate.\n")
            for edit in edits:
                written(f"{self.top}/crates/{crate}/must-fail/{edit}", f"# {edit}\n")
        os.makedirs(f"{self.top}/tools")
        for name in ("gate.py", "crate_hashes.py"):
            shutil.copy(f"{TOP}/tools/{name}", f"{self.top}/tools/{name}")
        written(f"{room.name}/bin/rt", RT)
        os.chmod(f"{room.name}/bin/rt", 0o755)
        self.environment = {**os.environ, "PATH": f"{room.name}/bin:{os.environ['PATH']}", "HOME": room.name}
        subprocess.run(["git", "init", "-q", self.top], env=self.environment, check=True)

    def tried(self, *words):
        """The names of the edits that `rt ci` sees."""
        ran = subprocess.run(["tools/gate.py", *words], cwd=self.top, env=self.environment, stdout=subprocess.PIPE, stderr=subprocess.DEVNULL,
                             text=True, check=False)
        self.assertEqual(ran.returncode, 3)  # that of rt
        return sorted(os.path.basename(it) for it in ran.stdout.splitlines() if it.endswith(".edit"))

    def there(self):
        return sorted(it for _, _, files in os.walk(f"{self.top}/crates") for it in files if it.endswith(".edit"))

    every = sorted(it for edits in EDITS.values() for it in edits)

    def test_edits_wait_while_it_runs(self):
        self.assertEqual(self.tried(), [])
        self.assertEqual(self.there(), self.every)

    def test_log(self):
        self.tried()
        with open(f"{self.top}/out/ci.log", encoding="utf-8") as file:
            lines = file.read().splitlines(keepends=True)
        self.assertEqual(["crate " + it for it in EDITS], [it.partition(" definitions=")[0] for it in lines[:len(EDITS)]])
        self.assertEqual("".join(lines[len(EDITS):]), SAID)

    def test_all(self):
        self.assertEqual(self.tried("--all"), self.every)
        self.assertEqual(self.there(), self.every)

    def test_no_commits(self):
        shutil.rmtree(f"{self.top}/.git")
        self.environment["GIT_CEILING_DIRECTORIES"] = os.path.dirname(self.top)
        self.assertEqual(self.tried(), [])
        self.assertEqual(self.there(), self.every)

    def test_times(self):
        self.environment.update(PAUSE="1", COUNT="3000000")
        self.tried()
        with open(f"{self.top}/out/times.txt", "a", encoding="utf-8") as file:
            print("took 2 60 examples/test.sh sfi", file=file)
        ran = subprocess.run(["tools/gate.py", "--times"], cwd=self.top, env=self.environment, stdout=subprocess.PIPE, text=True, check=False)
        lines = ran.stdout.splitlines()
        self.assertEqual(lines[1:3], ["     0                low", "     0      1      1  middle"])
        self.assertEqual(lines[4], "      2             60  examples/test.sh sfi")
        rows = {what: (int(seconds), int(processor)) for seconds, processor, what in (it.split(maxsplit=2) for it in lines[5:])}
        self.assertEqual(set(rows), {"rt ci", "rt ci: proofs and edits", "rt ci: tests and programs"})
        seconds, processor = rows["rt ci"]
        self.assertGreaterEqual(seconds, 2)
        self.assertTrue(1 <= processor < seconds, rows)

    def test_no_times(self):
        ran = subprocess.run(["tools/gate.py", "--times"], cwd=self.top, env=self.environment, capture_output=True, text=True, check=False)
        self.assertEqual((ran.returncode, ran.stdout, ran.stderr), (1, "", "gate.py: out/times.txt isn't there: ./test writes it\n"))

    def test_what_a_killed_run_left_is_put_back(self):
        aside = f"{self.top}/.git/sfi-edits/crates/low/must-fail"
        os.makedirs(aside)
        os.replace(f"{self.top}/crates/low/must-fail/one.edit", f"{aside}/one.edit")
        self.assertEqual(self.tried("--all"), self.every)
        self.assertEqual(self.there(), self.every)

    def test_a_run_that_is_ended_puts_all_back(self):
        self.environment["PAUSE"] = "3"
        process = subprocess.Popen(["tools/gate.py"], cwd=self.top, env=self.environment, stdout=subprocess.PIPE, text=True)
        while not process.stdout.readline().startswith("rt: middle"):
            pass
        self.assertEqual(self.there(), [])
        process.terminate()
        process.communicate()
        self.assertEqual((process.returncode, self.there()), (143, self.every))


# Scripts that note when they begin and end in a log, each with a time to sleep; $1 is how many run at a time.
SCRIPTS = """set -uo pipefail
source {top}/examples/harness.sh
source {top}/tools/side_by_side.sh
times=$PWD/times lanes=$1
scripts=(
    "device: ./part first 1 2_passed,_0_failed 0"
    "./part second 0.2 1_passed,_2_failed,_3_skipped 1"
    "wait modules"
    "./part third 0.1 1_passed,_0_failed 7"
    "device: ./part fourth 0.1 0_passed,_0_failed 0"
    "./part fifth 0.1 killed 0"
    "nothing_of_this_name"
)
make_modules() { sleep 2; echo modules >>log; }
start_making modules make_modules
run_scripts
printf '%s\n' "${results[@]}"
finish
"""
PART = """#!/bin/bash
echo "$1 begins" >>log
echo "of $1"
[ "$1" != second ] || echo "skipped: a thing: its tool isn't there"
sleep "$2"
echo "$1 ends" >>log
[ "$3" != killed ] || { kill -KILL $PPID; exit; }
echo "${3//_/ }"
exit "$4"
"""
PRINTED = """==== ./part first 1 2_passed,_0_failed 0
of first
2 passed, 0 failed
==== ./part second 0.2 1_passed,_2_failed,_3_skipped 1
of second
skipped: a thing: its tool isn't there
1 passed, 2 failed, 3 skipped
==== ./part third 0.1 1_passed,_0_failed 7
of third
1 passed, 0 failed
==== ./part fourth 0.1 0_passed,_0_failed 0
of fourth
0 passed, 0 failed
==== ./part fifth 0.1 killed 0
of fifth
==== nothing_of_this_name
"""
RESULTS = """./part first 1 2_passed,_0_failed 0: 2 passed, 0 failed
./part second 0.2 1_passed,_2_failed,_3_skipped 1: 1 passed, 2 failed, 3 skipped
    skipped: a thing: its tool isn't there
./part third 0.1 1_passed,_0_failed 7: 1 passed, 0 failed, but it ended in status 7: counted as failed
./part fourth 0.1 0_passed,_0_failed 0: no result, status 0: counted as failed
./part fifth 0.1 killed 0: no result, status none: counted as failed
nothing_of_this_name: no result, status 127: counted as failed
4 passed, 6 failed, 3 skipped
"""


class SideBySide(unittest.TestCase):
    def setUp(self):
        room = tempfile.TemporaryDirectory()
        self.addCleanup(room.cleanup)
        self.room = room.name
        written(f"{self.room}/scripts", SCRIPTS.replace("{top}", str(TOP)))
        written(f"{self.room}/part", PART)
        os.chmod(f"{self.room}/part", 0o755)

    def run_with(self, lanes):
        """What is printed but for the shell's own words, and what the log holds."""
        ran = subprocess.run(["bash", "scripts", str(lanes)], cwd=self.room, stdout=subprocess.PIPE, stderr=subprocess.DEVNULL, text=True, check=False)
        self.assertEqual(ran.returncode, 1)
        with open(f"{self.room}/log", encoding="utf-8") as file:
            return "".join(it for it in ran.stdout.splitlines(True) if "not found" not in it), file.read().splitlines()

    def test_one_at_a_time(self):
        printed, log = self.run_with(1)
        self.assertEqual(printed, PRINTED + RESULTS)
        with open(f"{self.room}/times", encoding="utf-8") as file:
            seconds = [int(it.split(" ", 3)[1]) for it in file if it.endswith(" making modules\n")]
        self.assertEqual([it >= 2 for it in seconds], [True])
        begun = [it for it in log if it != "modules"]
        self.assertEqual(begun, [f"{it} {step}" for it in ("first", "second", "third", "fourth", "fifth") for step in ("begins", "ends")])
        self.assertLess(log.index("modules"), log.index("third begins"))

    def test_two_at_a_time(self):
        printed, log = self.run_with(2)
        self.assertEqual(printed, PRINTED + RESULTS)
        self.assertLess(log.index("second ends"), log.index("first ends"))
        self.assertLess(log.index("modules"), log.index("third begins"))

    def test_one_of_a_group(self):
        written(f"{self.room}/scripts", SCRIPTS.replace("{top}", str(TOP)).replace('    "wait modules"\n', ""))
        printed, log = self.run_with(9)
        self.assertEqual(printed, PRINTED + RESULTS)
        self.assertLess(log.index("third begins"), log.index("first ends"))
        self.assertLess(log.index("first ends"), log.index("fourth begins"))

    def test_seconds(self):
        self.run_with(2)
        with open(f"{self.room}/times", encoding="utf-8") as file:
            self.assertRegex(file.read(), r"\Atook [12] \d \./part first 1 .*\ntook [01] \d \./part second (?s:.*)nothing_of_this_name\n\Z")

    def test_what_runs_ends_with_the_gate(self):
        written(f"{self.room}/scripts", SCRIPTS.replace("{top}", str(TOP)).replace("first 1 ", "first 600 "))
        process = subprocess.Popen(["bash", "scripts", "2"], cwd=self.room, stdout=subprocess.PIPE, stderr=subprocess.PIPE, text=True)
        while process.stdout.readline() != "of first\n":
            pass
        process.terminate()
        said = process.communicate(timeout=60)[1]  # neither a script nor what is made holds a pipe any more
        self.assertEqual(said, "")
        found = subprocess.run(["pgrep", "-f", "part first 600"], stdout=subprocess.PIPE, text=True, check=False)
        self.assertEqual(found.stdout, "")


if __name__ == "__main__":
    unittest.main()
