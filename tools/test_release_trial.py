"""Tests of tools/release_trial.py, with stand-ins for what a release holds: each damage is told. Of tools/release.py with
such stand-ins, and with logs of proofs. And that documents have what tools/newcomer.py types."""
import base64
import contextlib
import hashlib
import io
import os
import pathlib
import subprocess
import sys
import tarfile
import unittest
from unittest import mock

import checker_file
import converted
import crate_hashes
import definitions
import device_checkers
import evidence
import installed
import libraries
import newcomer
import package_trial
import packages
import release
import release_trial
import runtime_file
import statements
import test_evidence
import verify_evidence
from suygapid import native
from testing import TOP, Folder, needs

SAYS = "#!/bin/sh\necho accepted sandboxes=1 bundles=16\n"
WASM = bytes([0, 97, 115, 109, 1, 0, 0, 0])  # the empty module
FILES = {
    release_trial.SMALLEST: (TOP / release_trial.SMALLEST).read_bytes(),
    release_trial.PROGRAM: SAYS.encode(),
    release_trial.HOST_OF_NATIVE: f"#!/bin/sh\ncat >&2 <<END\n{release_trial.TOLD}END\nexit {release_trial.TRAPPED}\n".encode(),
    "page/module.js": b'class Module {}\nclass Tool { answer() { return { text: "accepted sandboxes=1 bundles=16\\n" }; } }\n',
    "page/sfi.wasm": WASM,
    "page/sfi.wasm.js": f'const SFI_WASM = "{base64.b64encode(WASM).decode()}";\n'.encode(),
    "bindings/node/index.mjs": b'export const load = async () => ({ sandboxes: [{ turn: () => ({ cause: "Break" }) }] });\n',
    release_trial.CHECKER: b'#include <stdio.h>\nint main(void) { puts("accepted sandboxes=1 bundles=16"); }\n',
    release_trial.RUNTIME: b"""#include "sfi_run.h"
uint32_t sfi_run_load(const uint8_t *image, size_t length, struct sfi_run_world *world, struct sfi_verdict *verdict) { return 0; }
void sfi_run_free(struct sfi_run_world *world) {}
uint32_t sfi_run_turn(struct sfi_run_world *world, uint32_t sandbox, uint32_t steps, struct sfi_run_event *event) {
    event->kind = SFI_RUN_TRAPPED, event->number = SFI_RUN_BREAK;
    return event->kind;
}
""",
} | {it: (TOP / it).read_bytes() for it in release_trial.HEADERS}
# What stands in the place of files, and what is said then. The files of C are tried where nothing else is wrong.
DAMAGES = [
    [(release_trial.PROGRAM, b"#!/bin/sh\necho accepted\n", "crates/sfi/out/sfi doesn't say 'accepted sandboxes=1 bundles=16'"),
     ("page/sfi.wasm", WASM + b"\0", "page/sfi.wasm.js doesn't hold page/sfi.wasm"),
     ("bindings/node/index.mjs", b"export const load = 1;\n", "bindings/node/sfi_run.wasm doesn't say 'Break'")],
    [(release_trial.PROGRAM, SAYS.encode() + b"exit 1\n", "crates/sfi/out/sfi doesn't say"),
     ("page/sfi.wasm.js", b"", "page/sfi.wasm.js doesn't hold page/sfi.wasm"),
     ("page/module.js", b"class Module {}\n", "page/sfi.wasm doesn't say")],
    [("page/sfi.wasm", b"", "page/sfi.wasm doesn't say"), (release_trial.HOST_OF_NATIVE, b"#!/bin/sh\nexit 126\n", f"{release_trial.HOST_OF_NATIVE} doesn't tell")],
    [(release_trial.CHECKER, b"int main(void) { return 0; }\n", f"{release_trial.CHECKER} doesn't say"),
     (release_trial.RUNTIME, FILES[release_trial.RUNTIME].replace(b"= SFI_RUN_BREAK", b"= SFI_RUN_FETCH"), f"{release_trial.RUNTIME} doesn't say 'Break'")],
    [(release_trial.CHECKER, b"int main(void) {\n", f"{release_trial.CHECKER} isn't compiled"),
     (release_trial.RUNTIME, b"int none;\n", f"{release_trial.RUNTIME} isn't compiled")],
]


@needs("node", "gcc")
class Trial(Folder):
    def put(self, path, data):
        place = self.room / path
        place.parent.mkdir(parents=True, exist_ok=True)
        place.write_bytes(data)
        place.chmod(0o755)

    def faults(self, *damages):
        """What is said of a release with these files in the place of its own."""
        files = FILES | dict(damages)
        for path, data in files.items():
            self.put(path, data)
        sums = "".join(f"{hashlib.sha256(data).hexdigest()}  {path}\n" for path, data in files.items())
        self.put(release_trial.SUMS, sums.encode())
        return release_trial.faults(self.room)

    def test_a_right_release(self):
        self.assertEqual(self.faults(), [])

    def test_damages(self):
        for damages in DAMAGES:
            found = self.faults(*((path, data) for path, data, _ in damages))
            for path, _, said in damages:
                with self.subTest(said, path=path):
                    self.assertTrue(any(it.startswith(said) for it in found), found)

    def test_checksums(self):
        self.faults()
        self.put("page/sfi.wasm.js", b"other")
        self.put("page/more.js", b"more")
        (self.room / "page" / "sfi.wasm").unlink()
        self.assertEqual(release_trial.faults_of_sums(self.room), [f"page/{it} isn't what SHA256SUMS says" for it in ("more.js", "sfi.wasm", "sfi.wasm.js")])


@needs("node", "gcc", "git")
class Whole(Folder):
    """tools/release.py on a scratch repository with stand-ins for what is built."""

    def setUp(self):
        super().setUp()
        self.top = self.room / "top"
        built = (release_trial.PROGRAM, "page/sfi.wasm", "page/sfi.wasm.js", release_trial.CHECKER, release_trial.RUNTIME)
        for path, data in FILES.items():
            (self.top / path).parent.mkdir(parents=True, exist_ok=True)
            (self.top / path).write_bytes(data)
            (self.top / path).chmod(0o755)
        host = self.top / release_trial.HOST_OF_NATIVE
        (self.top / ".gitignore").write_text("\n".join((*built, release_trial.HOST_OF_NATIVE)), encoding="utf-8")
        env = {**os.environ, "GIT_AUTHOR_DATE": "2026-11-25T12:00:00Z", "GIT_COMMITTER_DATE": "2026-11-25T12:00:00Z"}
        for words in (["init", "-q"], ["add", "-A"], ["-c", "user.name=a", "-c", "user.email=a@b", "commit", "-qm", "all"]):
            subprocess.run(["git", "-C", self.top, *words], check=True, env=env)
        first, *pages, checker, runtime = (self.top / it for it in built)
        for where, what, how in ((release, "TOP", self.top), (release, "MADE", pages), (release, "stale", list), (libraries, "HEADERS", {}),
                                 (release, "native_libraries", list), (installed, "built", lambda: [first]), (checker_file, "missing", list), (checker_file, "make", lambda: checker),
                                 (runtime_file, "missing", list), (runtime_file, "make", lambda: runtime), (native, "make", lambda anew: host), (converted, "files", dict),
                                 (device_checkers, "make", list), (release, "try_out", self.try_out)):
            patched = mock.patch.object(where, what, how)
            patched.start()
            self.addCleanup(patched.stop)

    tried: dict[bytes, str] = {}
    really_try = staticmethod(release.try_out)

    def try_out(self, name, packed_bytes):
        """Tries each tar file once."""
        if packed_bytes not in self.tried:
            try:
                self.really_try(name, packed_bytes)
                self.tried[packed_bytes] = ""
            except SystemExit as ended:
                self.tried[packed_bytes] = str(ended.code)
        if self.tried[packed_bytes]:
            sys.exit(self.tried[packed_bytes])

    def release(self, made="made", without=("evidence", "packages")):
        """What was printed on standard output, the paths of what was made, or why nothing was; and on standard error."""
        printed, said = io.StringIO(), io.StringIO()
        with contextlib.redirect_stdout(printed), contextlib.redirect_stderr(said):
            try:
                release.release(self.room / made, self.room / "log", without)
            except SystemExit as ended:
                return ended.code, said.getvalue()
        return printed.getvalue().strip(), said.getvalue()

    def test_a_release(self):
        made, said = self.release()
        with tarfile.open(made) as tar:
            names = sorted(it.partition("/")[2] for it in tar.getnames())
        self.assertEqual(names, sorted([*FILES, ".gitignore", "SHA256SUMS", "built.json"]))
        self.assertEqual(said, "release.py: left out: evidence, packages\n")

    def test_a_part_that_cannot_be_made(self):
        """There is no release, unless it is left out: then it isn't made."""
        def fails(*_):
            raise device_checkers.Failed("none is built")

        for name, where, what, why in (("checkers", device_checkers, "make", "none is built"), ("libraries", converted, "files", "none is built"),
                                       ("evidence", release, "TOP", f"there is no {self.room}/log")):
            with self.subTest(name), mock.patch.object(where, what, self.top if what == "TOP" else fails):
                others = {"evidence", "packages"} - {name}
                said = self.release(without=others)[0]
                self.assertTrue(said.startswith(f"release.py: {name}: {why}"), said)
                self.assertIn(f"--without {name}", said)
                self.assertFalse((self.room / "made").exists())
                self.assertIn(name, self.release(name, without={*others, name})[1])

    def test_the_same_files_make_the_same_bytes(self):
        made, another = (pathlib.Path(self.release(it)[0]) for it in ("made", "another"))
        self.assertEqual(made.read_bytes(), another.read_bytes())
        said = pathlib.Path(f"{made}.sha256").read_text(encoding="utf-8").split()
        self.assertEqual(said[0], hashlib.sha256(made.read_bytes()).hexdigest())

    def make_packages(self, folder, _compiled):
        (folder / "a.deb").write_bytes(b"package")
        return [folder / "a.deb"]

    def test_packages(self):
        with mock.patch.object(packages, "make", self.make_packages), mock.patch.object(package_trial, "faults", lambda path: []):
            made = self.release(without={"evidence"})[0].split("\n")
        self.assertEqual(made[1], str(self.room / "made" / "a.deb"))
        for it in map(pathlib.Path, made):
            said = pathlib.Path(f"{it}.sha256").read_text(encoding="utf-8")
            self.assertEqual(said, f"{hashlib.sha256(it.read_bytes()).hexdigest()}  {it.name}\n")

    def test_packages_with_faults(self):
        with mock.patch.object(packages, "make", self.make_packages), mock.patch.object(package_trial, "faults", lambda path: [f"{path.name}: bad"]):
            self.assertEqual(self.release(without={"evidence"})[0], "release.py: nothing is released: a.deb: bad")
        with mock.patch.object(packages, "missing", lambda _: ["npm"]):
            self.assertEqual(self.release(without={"evidence"})[0], "release.py: nothing is released: npm isn't there")
        self.assertFalse((self.room / "made").exists())

    def test_nothing_is_released(self):
        for path, data, why in ((release_trial.PROGRAM, b"", f"{release_trial.PROGRAM} has 0 bytes"), ("page/sfi.wasm", b"", "page/sfi.wasm has 0 bytes"),
                                (release_trial.CHECKER, b"", f"{release_trial.CHECKER} has 0 bytes"),
                                (release_trial.RUNTIME, b"", f"{release_trial.RUNTIME} has 0 bytes"),
                                (release_trial.PROGRAM, b"#!/bin/sh\n", f"nothing is released: {release_trial.PROGRAM} doesn't say"),
                                ("page/sfi.wasm.js", b"other", "nothing is released: page/sfi.wasm.js doesn't hold page/sfi.wasm")):
            with self.subTest(why):
                (self.top / path).write_bytes(data)
                self.assertEqual(self.release()[0].partition(" of ")[0].removesuffix(" 'accepted sandboxes=1 bundles=16'"), f"release.py: {why}")
                (self.top / path).write_bytes(FILES[path])
        for name, maker in (("suygapid_check.c", checker_file), ("suygapid_run.c", runtime_file)):
            with mock.patch.object(maker, "missing", lambda: ["wasm2c"]):
                self.assertIn(f"{name}, which docs/EMBEDDING.md says is in a release, can't be made: wasm2c isn't there", self.release()[0])
        self.assertFalse((self.room / "made").exists())


def once(make):
    """A function of a collection that makes its answer once."""
    made = {}

    def answer(given):
        key = tuple(sorted(map(repr, given)))
        if key not in made:
            made[key] = make(given)
        return made[key]

    return answer


DONE = "3 passed, 0 failed\n"


class EvidenceOfARelease(Folder):
    """The page and the log in a release. What the page says of contracts and definitions is made once."""

    @classmethod
    def setUpClass(cls):
        for where, name in ((statements, "told"), (evidence, "kit_section")):
            patched = mock.patch.object(where, name, once(getattr(where, name)))
            patched.start()
            cls.addClassCleanup(patched.stop)

    def files(self, text=None, time=None):
        """What a release has of a log with this text, or why it has nothing."""
        log = pathlib.Path(self.path("log"))
        if text is not None:
            log.write_text(text, encoding="utf-8")
        if time is not None:
            os.utime(log, (time, time))
        with mock.patch.object(evidence, "kit", return_value=test_evidence.KIT):
            return release.evidence_files(log)

    def test_no_log(self):
        with self.assertRaisesRegex(release.Lacking, f"^there is no {self.path('log')}, which ./test makes on a new machine, and `rt ci --anew > "):
            self.files()

    def test_a_log(self):
        text = test_evidence.log_of(definitions.crate_names()) + DONE
        found = self.files(text)
        self.assertEqual(sorted(found), ["evidence/ci.log", "evidence/page.txt"])
        self.assertEqual(found["evidence/ci.log"], (text.encode(), False))
        self.assertEqual(verify_evidence.judged(found["evidence/page.txt"][0].decode())[0], [])
        hashes = "\n".join(crate_hashes.lines()) + "\n"
        self.assertEqual(self.files(hashes + text, 1)["evidence/page.txt"], found["evidence/page.txt"])  # whose time says nothing then

    def test_logs_that_prove_nothing(self):
        crates = definitions.crate_names()
        whole, others = test_evidence.log_of(crates), "\n".join(crate_hashes.lines()[1:]) + "\n"
        for text, time, why in ((DONE, None, "isn't the log of a whole"), (test_evidence.log_of(crates[1:]) + DONE, None, f"{crates[0]} isn't proved"),
                                (whole + DONE, 1, "is older than a source"), (whole, None, "ends in .*, and not in `N passed, 0 failed`"),
                                (whole + "2 passed, 1 failed\n", None, "ends in '2 passed, 1 failed'"),
                                (others + whole + DONE, None, f"is of other sources, as of {crates[0]}")):
            with self.subTest(why), self.assertRaisesRegex(release.Lacking, why):
                self.files(text, time)


class Newcomer(unittest.TestCase):
    """tools/newcomer.py, which is for releases, as far as no Debian is wanted."""

    def test_documents_have_what_is_typed(self):
        for name, way in newcomer.WAYS.items():
            with self.subTest(name):
                typed = way(newcomer.Documents(TOP)).steps
                self.assertTrue(typed and all(it.words.strip() for it in typed))
                self.assertEqual([it for step in typed for it in step.words.split() if it.startswith(("tools/sfi", "./sfi")) and name == "apt"], [])

    def test_without_debootstrap(self):
        printed = io.StringIO()
        with mock.patch.object(newcomer, "missing", lambda: "debootstrap isn't there"), contextlib.redirect_stdout(printed):
            newcomer.main(["none"])
        self.assertEqual(printed.getvalue(), "skipped: newcomer.py: debootstrap isn't there\n0 passed, 0 failed, 1 skipped\n")


if __name__ == "__main__":
    unittest.main()
