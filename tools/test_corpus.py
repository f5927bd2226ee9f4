"""Tests of sfi-check, sfi-corpus and the package sfi_check: `tools/unit_tests.py tools`. They are skipped where the library of the
checker isn't built; those of a cluster where no Python has Dask's `distributed`. The verdicts that are wanted are those of
docs/IMAGE.md on the smallest image and on changes of it."""
import contextlib
import hashlib
import io
import json
import os
import pathlib
import pty
import re
import shutil
import signal
import sqlite3
import subprocess
import sys
import time
import unittest
import zipfile
from unittest import mock

import libraries
from testing import SFI, TOOLS, TOP, Folder, needs_program, with_dask

PYTHON = TOP / "bindings" / "python"
sys.path.append(str(PYTHON))
from sfi_check import command as check
from sfi_check.corpus import command

SMALLEST = bytes.fromhex((TOP / "examples" / "smallest.hex").read_text(encoding="ascii"))
BROKEN = SMALLEST.replace(bytes.fromhex("73001000"), bytes.fromhex("130c1c00"), 1)  # addi x24, x24, 1 at the code's first address
SHORT = SMALLEST[:-1]
ACCEPTED, REFUSED = "accepted sandboxes=1 bundles=16", "refused findings=1 first=V4 sandbox=0 at=01000000"
READY = os.path.exists(libraries.built("sfi_c")) and shutil.which("gcc")
LOGIC = r"version=\d+\.\d+\.\d+ commit=\w+(\+\w+)? logic=\w+"
# Work that kills the process which does it, the first time that a file isn't there.
KILLS = """
import os, signal, time
def work(job):
    number, noted = job
    if number == 7 and not os.path.exists(noted):
        open(noted, "w").close()
        os.kill(os.getpid(), signal.SIGKILL)
    return number
def always(job):
    os.kill(os.getpid(), signal.SIGKILL)
"""


def children_of(process):
    """The processes that it has started, and that run."""
    try:
        return [int(it) for it in pathlib.Path(f"/proc/{process}/task/{process}/children").read_text(encoding="ascii").split()]
    except FileNotFoundError:  # it has ended
        return []


DASK = with_dask()


@unittest.skipUnless(READY, "the library of the checker or gcc isn't there")
class Corpus(Folder):
    @classmethod
    def setUpClass(cls):
        cls.env = {**os.environ, "SFI_C_LIBRARY": libraries.make("sfi_c")[1], "PYTHONDONTWRITEBYTECODE": "1"}
        patched = mock.patch.dict(os.environ, SFI_C_LIBRARY=cls.env["SFI_C_LIBRARY"])
        patched.start()
        cls.addClassCleanup(patched.stop)

    def image(self, name, data):
        path = self.room / name
        path.parent.mkdir(parents=True, exist_ok=True)
        path.write_bytes(data)
        return str(path)

    def images(self, count):
        """A folder of so many images, each with other first bytes of data; every tenth breaks a rule."""
        for k in range(count):
            made = bytearray(BROKEN if k % 10 == 9 else SMALLEST)
            made[32:36] = (4).to_bytes(4, "little")
            self.image(f"many/{k:05}.image", bytes(made) + k.to_bytes(4, "little"))
        return str(self.room / "many")

    def run_words(self, *words, env=None, user=None):
        done = subprocess.run(words, capture_output=True, text=True, check=False, env=env or self.env, cwd=self.room, user=user)
        return done.returncode, done.stdout.splitlines(), done.stderr

    def run_here(self, main, *words):
        """The same of a command's function in this process, which spares a start of Python, and git and rt what they are asked then."""
        before, out, said = os.getcwd(), io.StringIO(), io.StringIO()
        os.chdir(self.room)
        try:
            with contextlib.redirect_stdout(out), contextlib.redirect_stderr(said):
                status = main(list(map(str, words)))
        except SystemExit as ended:
            status = ended.code
        finally:
            os.chdir(before)
        return status, out.getvalue().splitlines(), said.getvalue()

    def check(self, *words):
        """`sfi-check`."""
        return self.run_here(check.main, *words)

    def corpus(self, *words):
        """`sfi-corpus`."""
        return self.run_here(command.main, *words)

    def change(self, database, script):
        with contextlib.closing(sqlite3.connect(self.path(database))) as base:
            base.executescript(script)

    def told(self, database="corpus.sqlite"):
        """What a database has of each file."""
        status, _, said = self.corpus("report", "--database", database, "--json", "told.json")
        self.assertEqual((status, said), (0, ""))
        return [json.loads(line) for line in self.read("told.json").splitlines()]


class Files(Corpus):
    def test_a_line_for_each(self):
        names = [self.image("good.image", SMALLEST), self.image("broken.image", BROKEN), self.image("short.image", SHORT), self.path("none"), self.folder]
        status, lines, said = self.check(*names)
        self.assertEqual((status, said), (5, ""))
        wanted = [ACCEPTED, REFUSED, "layout fault 3 Short", "not judged: No such file or directory", "not judged: Is a directory"]
        for line, name, verdict, data in zip(lines, names, wanted, [SMALLEST, BROKEN, SHORT, b"", b""]):
            sha256 = f" sha256={hashlib.sha256(data).hexdigest()}" if data else ""
            self.assertRegex(line, f"^{re.escape(verdict + sha256)} {LOGIC} file={re.escape(name)}$")
        self.assertEqual(len(lines), 5)

    def test_statuses(self):
        good, broken, short = self.image("a", SMALLEST), self.image("b", BROKEN), self.image("c", SHORT)
        for names, wanted in (([good], 0), ([broken, good], 1), ([short, broken, good], 2), ([self.path("none"), good], 5)):
            self.assertEqual(self.check(*names)[0], wanted)
        for words in ([], ["--other", good]):
            status, lines, said = self.check(*words)
            self.assertEqual((status, lines), (3, []))
            self.assertIn("usage: sfi-check", said)

    def test_hexadecimal_text(self):
        name = self.image("smallest.hex", SMALLEST.hex().encode())
        status, lines, said = self.check(name)
        self.assertEqual((status, said), (2, f"sfi-check: {name} is hexadecimal text, which `sfi check` reads\n"))
        self.assertTrue(lines[0].startswith("layout fault 1 Magic "), lines)

    def test_json(self):
        name = self.image("a\nb", BROKEN)
        told = json.loads(self.check("--json", name)[1][0])
        self.assertEqual({it: told[it] for it in ("file", "status", "verdict", "findings", "rule", "sandbox", "at", "sha256")},
                         {"file": name, "status": 1, "verdict": REFUSED, "findings": 1, "rule": "V4", "sandbox": 0, "at": "01000000",
                          "sha256": hashlib.sha256(BROKEN).hexdigest()})
        self.assertRegex(" ".join(f"{it}={told[it]}" for it in ("version", "commit", "logic")), f"^{LOGIC}$")
        self.assertEqual(self.check(name)[1][0].rpartition("file=")[2], json.dumps(name))

    def test_a_version(self):
        for tool in ("sfi-check", "sfi-corpus"):
            status, lines, _ = self.run_words(TOOLS / tool, "--version")
            self.assertEqual(status, 0)
            self.assertRegex(lines[0], f"^{tool} {LOGIC}$")

    def test_no_library(self):
        status, lines, said = self.run_words(TOOLS / "sfi-check", self.image("a", SMALLEST), env={**self.env, "SFI_C_LIBRARY": "/none"})
        self.assertEqual((status, lines), (5, []))
        self.assertIn("SFI_C_LIBRARY has to name", said)

    @needs_program
    def test_the_program_says_the_same(self):
        for data in (SMALLEST, BROKEN, SHORT, SMALLEST + b"x", b"", b"SFI2" + SMALLEST[4:], b"SFIW" + SMALLEST[4:]):
            by_program = subprocess.run([SFI, "check", "--raw"], input=data, capture_output=True, check=False)
            status, lines, _ = self.check(self.image("a", data))
            self.assertEqual((status, lines[0].partition(" sha256=")[0]), (by_program.returncode, by_program.stdout.decode().rstrip()))


class Kept(Corpus):
    def test_a_second_run_does_what_is_new(self):
        folder = self.images(40)
        status, lines, said = self.corpus("check", folder, "none")
        self.assertEqual((status, said), (5, "sfi-corpus: not judged: 'none': No such file or directory\n"))
        self.assertRegex(lines[-1], f"^files=41: 36 accepted, 4 refused, 0 no image, 1 not judged; 40 judged anew by {LOGIC}$")
        self.image("many/00000.image", SHORT)
        self.image("many/new.image", SMALLEST)
        status, lines, _ = self.corpus("check", folder)
        self.assertEqual(status, 2)
        self.assertRegex(lines[-1], "^files=41: 36 accepted, 4 refused, 1 no image, 0 not judged; 2 judged anew by ")
        told = self.told()
        self.assertEqual((len(told), sum(it["status"] == 0 for it in told)), (42, 36))
        self.assertEqual([it["failure"] for it in told if it["file"] == "none"], ["No such file or directory"])

    def test_what_is_below_a_folder(self):
        self.image("below/a/b/one.image", SMALLEST)
        (self.room / "below" / "missing").symlink_to("nowhere")
        (self.room / "below" / "again").symlink_to("a")  # a folder that stands there already
        os.mkfifo(self.room / "below" / "pipe")
        _, lines, said = self.corpus("check", "below")
        self.assertRegex(lines[-1], "^files=2: 1 accepted, 0 refused, 0 no image, 1 not judged; ")
        self.assertEqual(said, "sfi-corpus: not judged: 'below/missing': No such file or directory\n")
        self.assertEqual([it["file"] for it in self.told()], ["below/a/b/one.image", "below/missing"])

    def test_names_that_are_no_text(self):
        name = os.fsdecode(os.fsencode(self.folder) + b"/\xff.image")
        self.image(name, BROKEN)
        for fresh in (1, 0):
            status, lines, _ = self.corpus("check", name)
            self.assertEqual(status, 1)
            self.assertIn(f"; {fresh} judged anew", lines[-1])
        self.assertEqual(self.told()[0]["file"], name)

    def test_an_interrupted_run_goes_on(self):
        folder = self.images(3000)
        run = subprocess.Popen([TOOLS / "sfi-corpus", "check", "--jobs", "1", folder], env=self.env, cwd=self.room, stderr=subprocess.PIPE)
        while not (self.room / "corpus.sqlite").exists():
            time.sleep(0.01)
        run.send_signal(signal.SIGINT)
        said = run.communicate()[1].decode()
        self.assertIn(run.returncode, (0, 130, 1))  # it may have ended before
        self.assertNotIn("Traceback", said)
        self.assertRegex(self.corpus("check", folder)[1][-1], "^files=3000: 2700 accepted, 300 refused, 0 no image, 0 not judged; ")
        self.assertEqual(len(self.told()), 3000)

    def test_a_local_worker_that_is_killed(self):
        folder = self.images(3000)
        run = subprocess.Popen([TOOLS / "sfi-corpus", "check", "--jobs", "2", folder], env=self.env, cwd=self.room, stdout=subprocess.PIPE, text=True)
        while run.poll() is None and not children_of(run.pid):
            time.sleep(0.001)
        with contextlib.suppress(ProcessLookupError):  # it may have ended before
            for worker in children_of(run.pid)[-1:]:
                os.kill(worker, signal.SIGKILL)
        self.assertRegex(run.communicate()[0], "files=3000: 2700 accepted, 300 refused, 0 no image, 0 not judged; ")
        self.assertEqual(len(self.told()), 3000)

    def test_two_databases(self):
        one, two = self.image("one.image", SMALLEST), self.image("two.image", BROKEN)
        for name, image in (("a", one), ("b", two)):
            self.corpus("check", "--database", name, image)
        self.assertEqual(self.corpus("merge", "a", "b"), (0, [], ""))
        self.assertEqual([(it["file"], it["status"]) for it in self.told("a")], [(one, 0), (two, 1)])
        self.assertRegex(self.corpus("check", "--database", "a", one, two)[1][-1], "; 0 judged anew")

    def test_databases_that_differ_on_an_image(self):
        image = self.image("one.image", BROKEN)
        for name in ("a", "b"):
            self.corpus("check", "--database", name, image)
        self.change("b", "update verdicts set status = 0")
        status, _, said = self.corpus("merge", "a", "b")
        self.assertEqual(status, 5)
        self.assertIn(f"different verdicts of one checker on the image {hashlib.sha256(BROKEN).hexdigest()}", said)
        self.assertEqual([it["status"] for it in self.told("a")], [1])

    def test_what_is_no_database(self):
        self.write("text", "no database, but a text\n")
        for words, told in ((["report", "--database", "none"], "none isn't there"), (["check", "--database", "text", "x"], "text: "),
                            (["merge", "c", "none"], "none isn't there"), (["check", "--database", "/none/x", "x"], "/none/x: ")):
            status, _, said = self.corpus(*words)
            self.assertEqual(status, 5, words)
            self.assertIn(f"sfi-corpus: {told}", said)

    def test_a_damaged_database(self):
        """Its pages, a table of it, or its verdicts aren't those that were written."""
        image = self.image("one.image", BROKEN)
        for name in ("pages", "table", "verdict"):
            self.assertEqual(self.corpus("check", "--database", name, image)[0], 1)
        (self.room / "pages").write_bytes((self.room / "pages").read_bytes()[:4096] + bytes(8192))
        self.change("table", "drop table verdicts; create table verdicts (other)")
        self.change("verdict", "update verdicts set status = 9")
        for words in (["check", "--database", "pages", image], ["report", "--database", "pages"], ["merge", "new", "pages"],
                      ["check", "--database", "table", image], ["report", "--database", "table", "--page", "page.html"],
                      ["merge", "new", "table"], ["report", "--database", "verdict"]):
            status, _, said = self.corpus(*words)
            self.assertEqual((status, said.count("\n")), (5, 1), said)
            self.assertIn("sfi-corpus: ", said)
        self.assertEqual(self.corpus("check", "--database", "verdict", image)[0], 1)

    def test_words(self):
        status, lines, said = self.corpus()
        self.assertEqual((status, lines, said.startswith("usage: sfi-corpus")), (3, [], True))
        for words in ([], ["check"], ["seeds", "true"], ["seeds", "--count", "2"], ["merge", "a"], ["check", "--jobs", "0", "x"],
                      ["check", "--jobs", "2", "--scheduler", "x", "y"], ["check", "--jobs", "100000", "x"],
                      ["seeds", "--count", "1", "--seconds", "nan", "x"], ["seeds", "--count", "1", "--seconds", "-1", "x"],
                      ["seeds", "--count", "2", "--first", "9223372036854775807", "x"]):
            said = io.StringIO()
            with self.subTest(words), contextlib.redirect_stderr(said), self.assertRaises(SystemExit) as ended:
                command.parsed(words)
            self.assertEqual(ended.exception.code, 3)
            self.assertIn("usage: sfi-corpus", said.getvalue())

    def test_a_bar_on_a_terminal(self):
        """Of a Python that has tqdm; without a terminal nothing is said."""
        python = next((it for it in (sys.executable, "/usr/bin/python3") if subprocess.run([it, "-c", "import tqdm"], capture_output=True,
                                                                                         check=False).returncode == 0), None)
        if not python:
            self.skipTest("no Python has tqdm")
        ours, theirs = pty.openpty()
        subprocess.run([python, TOOLS / "sfi-corpus", "check", self.images(20)], env=self.env, cwd=self.room, stderr=theirs,
                       stdout=subprocess.DEVNULL, check=False)
        os.close(theirs)
        with os.fdopen(ours, "rb", buffering=0) as terminal:
            self.assertIn(b"20/20", terminal.read(10000))


class Seeds(Corpus):
    def test_what_differs_is_kept(self):
        script = self.write("odd.sh", "#!/bin/sh\nif [ $(($1 % 3)) = 0 ]; then echo differs: $1; exit 1; fi\necho same\n", 0o755)
        status, lines, _ = self.corpus("seeds", "--first", "10", "--count", "6", script)
        self.assertEqual(status, 1)
        self.assertEqual(lines[-1], "6 seeds run, 2 differ, 0 known from before")
        self.assertEqual(sorted(it.split(" after")[0] for it in lines[:-1]), ["seed 12 ended in status 1", "seed 15 ended in status 1"])
        self.assertEqual(self.corpus("seeds", "--first", "10", "--count", "7", script)[1], ["1 seeds run, 0 differ, 6 known from before"])
        self.corpus("report", "--page", "page.html")
        page = self.read("page.html")
        self.assertIn("differs: 12", page)
        self.assertNotIn("same", page)

    def test_what_is_skipped_is_told(self):
        for last, told in (("1 passed, 0 failed, 2 skipped", "; 1 skipped a part"), ("3 passed, 0 failed", "")):
            self.assertEqual(self.corpus("seeds", "--count", "1", "--", "echo", f"{last}\n{{}}\n{last}")[1],
                             [f"1 seeds run, 0 differ, 0 known from before{told}"])

    def test_the_place_of_a_seed_and_what_never_ends(self):
        self.assertEqual(self.corpus("seeds", "--count", "2", "--", "test", "{}", "-lt", "9")[0], 0)
        status, lines, _ = self.corpus("seeds", "--count", "1", "--seconds", "0.2", "--", "sh", "-c", "sleep 9 # {}")
        self.assertEqual((status, lines[0].split(" after")[0]), (1, "seed 1 ended in status 124"))
        status, lines, said = self.corpus("seeds", "--count", "1", "--", os.fsdecode(b"/none/\xff"))
        self.assertEqual((status, lines[0].split(" after")[0], said), (1, "seed 1 ended in status 127", ""))
        for _ in range(2):  # what can't be run isn't known from before
            self.assertEqual(self.corpus("seeds", "--count", "1", "/none/x")[1][-1], "1 seeds run, 1 differ, 0 known from before")


class Engine(Corpus):
    def engine(self, text):
        self.write("kills.py", KILLS)
        words = f"from sfi_check.corpus import engine; import kills\n{text}"
        return self.run_words(sys.executable, "-c", words, env={**self.env, "PYTHONPATH": f"{PYTHON}:{self.folder}"})

    def test_a_killed_worker_loses_nothing(self):
        status, lines, said = self.engine("print(sorted(engine.results(kills.work, ((k, 'noted') for k in range(50)), 3)) == list(range(50)))")
        self.assertEqual((status, lines, said), (0, ["True"], ""))
        self.assertTrue((self.room / "noted").exists())

    def test_workers_end_with_a_parent_that_is_killed(self):
        note = self.write("note", "#!/bin/sh\n[ $1 != 1 ] || : >1\n", 0o755)  # what a seed does last may come after the end of this test
        words = [TOOLS / "sfi-corpus", "seeds", "--jobs", "3", "--count", "1000000000000", note]
        with subprocess.Popen(words, env=self.env, cwd=self.room, stdout=subprocess.PIPE, stderr=subprocess.PIPE) as run:
            while not (self.room / "1").exists():  # which the first seed makes
                time.sleep(0.01)
            run.kill()
            run.communicate(timeout=60)  # each worker has standard output, too, up to its end
        self.assertEqual(run.returncode, -signal.SIGKILL)

    def test_work_that_always_kills(self):
        status, _, said = self.engine("list(engine.results(kills.always, range(5), 2))")
        self.assertEqual(status, 1)
        self.assertIn("Failed: a worker was killed 3 times, one after another", said)


def unpacked_wheel(folder, env):
    """The files of the wheel, as pip unpacks them."""
    env = {**env, "SFI_RUN_LIBRARY": libraries.make("sfi_run")[1]}
    subprocess.run([sys.executable, "-c", f"import wheel_builder; wheel_builder.build_wheel({str(folder)!r})"], cwd=PYTHON, env=env, check=True)
    site = folder / "site"
    with zipfile.ZipFile(next(folder.glob("*.whl"))) as wheel:
        wheel.extractall(site)
    return site


@unittest.skipUnless(DASK, "no Python has Dask's distributed (python3-distributed)")
@unittest.skipUnless(os.path.exists(libraries.built("sfi_run")), "the library of the runtime isn't built")
class Cluster(Corpus):
    """A scheduler and two workers, whose Python knows nothing but the wheel."""

    def setUp(self):
        super().setUp()
        site = unpacked_wheel(self.room, self.env)
        self.noted = site / "sfi_check" / "built.json"
        self.assertRegex(" ".join(f"{name}={value}" for name, value in json.loads(self.noted.read_text(encoding="utf-8")).items()),
                         r"^commit=\w+(\+\w+)? logic=\w+$")
        self.noted.write_text('{"commit": "0123456789ab", "logic": "fedcba9876543210"}\n', encoding="utf-8")
        self.env = {**self.env, "PYTHONPATH": str(site)}
        del self.env["SFI_C_LIBRARY"]
        self.processes = []
        self.addCleanup(self.end)
        self.start("scheduler", "--host", "127.0.0.1", "--port", "0", "--scheduler-file", "address.json")
        for _ in range(2):
            self.start("worker", "--scheduler-file", "address.json", "--nthreads", "1", "--no-nanny", "--local-directory", self.folder)
        self.address = self.told_address()

    def start(self, name, *words):
        module = f"distributed.cli.dask_{name}"
        self.processes.append(subprocess.Popen([DASK, "-m", module, *words, "--no-dashboard"], env=self.env, cwd=self.room,
                                               stdout=subprocess.DEVNULL, stderr=subprocess.DEVNULL))

    def told_address(self):
        end = time.monotonic() + 60
        while time.monotonic() < end:
            with contextlib.suppress(OSError, ValueError):
                return json.loads(self.read("address.json"))["address"]
            time.sleep(0.1)
        return self.fail("the scheduler doesn't start")

    def end(self):
        for process in reversed(self.processes):
            process.kill()
            process.wait()

    def on_cluster(self, *words):
        return self.run_words(DASK, "-m", "sfi_check.corpus", *words)

    def test_verdicts_a_worker_that_is_killed_and_one_of_another_commit(self):
        folder = self.images(4000)
        run = subprocess.Popen([DASK, "-m", "sfi_check.corpus", "check", "--scheduler", self.address, folder], env=self.env, cwd=self.room,
                               stdout=subprocess.PIPE, stderr=subprocess.PIPE)
        while not (self.room / "corpus.sqlite").exists():
            time.sleep(0.02)
        self.processes[-1].kill()
        printed, said = run.communicate()
        self.assertEqual(run.returncode, 1, said.decode())
        self.assertRegex(printed.decode(), "^files=4000: 3600 accepted, 400 refused, 0 no image, 0 not judged; 4000 judged anew by version=[0-9.]+"
                                           " commit=0123456789ab logic=fedcba9876543210\n$")
        status, lines, _ = self.on_cluster("check", "--scheduler", self.address, "--send", folder, "none")
        self.assertEqual(status, 5)
        self.assertRegex(lines[-1], "^files=4001: 3600 accepted, 400 refused, 0 no image, 1 not judged; 0 judged anew")
        status, _, said = self.on_cluster("check", "--scheduler", self.address, "none")
        self.assertEqual(status, 5)
        self.assertIn("not judged: 'none': No such file or directory: workers read files by these names, unless --send", said)
        self.noted.write_text('{"commit": "ba9876543210", "logic": "fedcba9876543210"}\n', encoding="utf-8")
        status, _, said = self.on_cluster("check", "--scheduler", self.address, folder)  # the worker has been asked, and keeps its answer
        self.assertEqual(status, 5)
        self.assertIn("has a checker of {'version': ", said)
        self.processes.pop(-2).kill()
        self.env["PYTHONPATH"] = ""
        self.start("worker", "--scheduler-file", "address.json", "--nthreads", "1", "--no-nanny", "--local-directory", self.folder)
        self.env["PYTHONPATH"] = str(self.room / "site")
        status, _, said = self.on_cluster("check", "--scheduler", self.address, folder)
        self.assertEqual((status, "No module named 'sfi_check'" in said, "its Python wants the wheel" in said), (5, True, True), said)


class NoCluster(Corpus):
    def test_what_is_told(self):
        python = DASK or sys.executable
        env = {**self.env, "PYTHONPATH": str(PYTHON)}
        words = [python, "-c", "from sfi_check.corpus import engine; engine.SECONDS = 1; from sfi_check.corpus.command import main; import sys;"
                               "sys.exit(main(['check', '--scheduler', 'tcp://127.0.0.1:1', 'x']))"]
        status, _, said = self.run_words(*words, env=env)
        self.assertEqual(status, 5)
        self.assertIn("doesn't answer" if DASK else "python3-distributed", said)
        status, _, said = self.run_words(python, "-m", "sfi_check.corpus", "check", "--scheduler", "nowhere", "x", env=env)
        self.assertEqual(status, 5)
        self.assertIn("nowhere is no address of a scheduler" if DASK else "python3-distributed", said)


if __name__ == "__main__":
    unittest.main()
