"""Tests of ./install and tools/release.py: `tools/unit_tests.py tools`. They are skipped where the program or a library
isn't built, or gcc isn't there; those of releases and of node where a module isn't made."""
import contextlib
import json
import os
import pathlib
import re
import shutil
import subprocess
import sys
import tarfile
import tempfile
import unittest

import checker_file
import definitions
import evidence
import installed
import libraries
import release
import runtime_file
import test_evidence
import version
import wasm_module
from testing import GCC, TOP, Folder, needs

NO_FILES = checker_file.missing() + runtime_file.missing()
READY = all(it.is_file() for it in installed.built()) and shutil.which("gcc") and shutil.which("git")
SMALLEST = (TOP / "examples" / "smallest.hex").read_text(encoding="ascii")
ACCEPTED = "accepted sandboxes=1 bundles=16\n"
HELLO = '#include "gates.h"\n\nint main(void) {\n    put("Hi", 2);\n    return 105;\n}\n'
CHECKER = """
#include "sfi.h"
#include <stdio.h>
int main(void) {
    static unsigned char image[1 << 20];
    struct sfi_verdict verdict;
    size_t length = fread(image, 1, sizeof image, stdin);
    printf("%u %s\\n", sfi_c_check(image, length, &verdict), SFI_VERSION);
    return 0;
}
"""
RUNNER = """
#include "sfi_run.h"
#include <stdio.h>
int main(void) {
    static unsigned char image[1 << 20];
    struct sfi_run_world world = SFI_RUN_NO_WORLD;
    struct sfi_run_event event;
    struct sfi_verdict verdict;
    size_t length = fread(image, 1, sizeof image, stdin);
    unsigned loaded = sfi_run_load(image, length, &world, &verdict), kind = sfi_run_turn(&world, 0, 5, &event);
    printf("%u %u %u %s\\n", loaded, kind, event.number, SFI_RUN_VERSION);
    sfi_run_free(&world);
    return 0;
}
"""
# What isn't tried here: tools/test_release_trial.py tries each part by stand-ins, others the parts.
WITHOUT = [word for part in ("libraries", "checkers", "packages") for word in ("--without", part)]
# The smallest image is 64 times ebreak: of a first turn, the trap Break.
TOLD = {"sfi_c": (CHECKER, f"0 {version.version()}\n"), "sfi_run": (RUNNER, f"0 4 3 {version.version()}\n")}


def run(*words, given=None, **how):
    return subprocess.run(words, input=given, capture_output=True, text=not isinstance(given, bytes), check=False, **how)


def tree(folder):
    """All files and folders below a folder."""
    return sorted(str(it.relative_to(folder)) for it in folder.rglob("*"))


@unittest.skipUnless(READY, "the program, a library, gcc or git isn't there")
class Installing(Folder):
    def setUp(self):
        super().setUp()
        self.prefix = self.room / "prefix"

    def install(self, *words, top=TOP):
        return run(top / "install", *words)

    def installs(self, prefix=None, top=TOP):
        done = self.install(prefix or self.prefix, top=top)
        self.assertEqual((done.returncode, done.stderr), (0, ""))


class Installed(Installing):
    """What an installation holds, by what its user does with it. One serves all of these tests, which change nothing in it."""

    @classmethod
    def setUpClass(cls):
        room = tempfile.TemporaryDirectory()
        cls.addClassCleanup(room.cleanup)
        cls.shared = pathlib.Path(room.name) / "prefix"
        cls.done = run(TOP / "install", cls.shared)

    def setUp(self):
        super().setUp()
        self.prefix = self.shared
        self.assertEqual((self.done.returncode, self.done.stderr), (0, ""))
        self.env = {**os.environ, "PKG_CONFIG_PATH": str(self.prefix / "lib" / "pkgconfig"), "PATH": f"{self.prefix}/bin:{os.environ['PATH']}"}

    def test_the_program_runs(self):
        done = run("sfi", "check", given=SMALLEST, env=self.env)
        self.assertEqual((done.stdout, done.returncode), (ACCEPTED, 0))

    def test_the_program_tells_of_what_it_was_built(self):
        """As the tools do, below its version."""
        done, tool = run("sfi", "--version", env=self.env), run("sfi-map", "--version", env=self.env)
        made_of = tool.stdout.removeprefix(f"sfi-map version={version.version()} ")
        self.assertEqual((done.stdout, done.returncode), (f"sfi {version.version()}\n{made_of}", 3))
        self.assertRegex(made_of, "^commit=.+ logic=.+\n$")

    @needs(GCC)
    def test_c_becomes_an_image(self):
        by_library = (TOP / "examples" / "c" / "hello.c").read_text(encoding="utf-8")
        for text, output, status in ((HELLO, "Hi", 105), (by_library, "Hello, world\n", 0)):
            self.write("hello.c", text)
            image = run("sfi-cc", "hello.c", env=self.env, cwd=self.room)
            self.assertEqual((image.returncode, image.stderr), (0, ""))
            self.write("hello.hex", image.stdout)
            done = run("sfi", "exec", "hello.hex", env=self.env, cwd=self.room)
            self.assertEqual((done.stdout, done.returncode), (output, status))

    @needs("pkg-config")
    def test_programs_are_linked(self):
        for library, (source, told) in TOLD.items():
            self.write("host.c", source)
            flags = run("pkg-config", "--cflags", "--libs", library, env=self.env).stdout.split()
            shared = [*flags, f"-Wl,-rpath,{self.prefix}/lib"]
            static = [f"-I{self.prefix}/include", f"{self.prefix}/lib/lib{library}.a"]
            for name, words in (("shared", shared), ("static", static)):
                with self.subTest(library=library, kind=name):
                    made = run("gcc", "-Wall", "-Wextra", "-Werror", "host.c", "-o", "host", *words, cwd=self.room)
                    self.assertEqual(made.stderr, "")
                    ran = run(self.room / "host", given=bytes.fromhex(SMALLEST))
                    self.assertEqual(ran.stdout.decode(), told)
                    needed = run("readelf", "-d", self.room / "host").stdout
                    self.assertEqual(libraries.shared_name(library) in needed, name == "shared")

    @needs("pkg-config")
    def test_the_packages_state_the_version(self):
        for library in TOLD:
            self.assertEqual(run("pkg-config", "--modversion", library, env=self.env).stdout, f"{version.version()}\n")

    def test_the_package_for_python_is_found(self):
        words = "import sfi_run, sys; print(sfi_run.World(sys.stdin.buffer.read())[0].turn(5))"
        env = {**self.env, "PYTHONPATH": str(self.prefix / installed.SHARE / "bindings" / "python"), "PYTHONDONTWRITEBYTECODE": "1"}
        env.pop("SFI_RUN_LIBRARY", None)
        done = run(sys.executable, "-c", words, given=bytes.fromhex(SMALLEST), env=env)
        self.assertEqual((done.stdout.decode(), done.stderr), ("Trapped(cause=<Cause.BREAK: 3>, address=16777216)\n", b""))

    @needs("node")
    @unittest.skipUnless(release.MADE[-1].is_file(), "node's module isn't made: tools/build_node.py")
    def test_the_package_for_node_is_found(self):
        package = self.prefix / installed.SHARE / "bindings" / "node"
        words = f"import {{ load }} from '{package}/index.mjs'; import {{ readFileSync }} from 'node:fs'; " \
                "console.log((await load(readFileSync(0))).sandboxes[0].turn(5).cause)"
        env = {**self.env}
        env.pop("SFI_RUN_MODULE", None)
        done = run("node", "--input-type=module", "-e", words, given=bytes.fromhex(SMALLEST), env=env)
        self.assertEqual((done.stdout, done.stderr), (b"Break\n", b""))
        self.assertFalse((package / "test.mjs").exists())

    @needs("cargo")
    def test_the_crate_for_rust_is_linked(self):
        (self.room / "smallest.image").write_bytes(bytes.fromhex(SMALLEST))
        env = {**self.env, "CARGO_TARGET_DIR": str(self.room / "target")}
        env.pop("SFI_RUN_LIBRARY", None)
        done = run("cargo", "run", "-q", "--offline", "--locked", "--example", "console", self.room / "smallest.image", env=env,
                   cwd=self.prefix / installed.SHARE / "bindings" / "rust")
        self.assertEqual((done.stdout, done.stderr), ("sandbox=0 trap=Break at=01000000 steps=0 out=\n", ""))

    def test_documents_lead_to_each_other(self):
        """Each link of an installed document to a document leads to one that is installed."""
        folder = self.prefix / "share" / "doc" / "suygapid"
        documents = sorted(folder.rglob("*.md"))
        self.assertIn(folder / "README.md", documents)
        self.assertIn(folder / "docs" / "EMBEDDING.md", documents)
        for document in documents:
            links = re.findall(r"\]\(([^)#:]*\.(?:md|png))[)#]", document.read_text(encoding="utf-8"))
            for link in links:
                led = os.path.normpath(document.parent / link)
                if led.startswith(os.fspath(folder / "docs")) or os.path.dirname(led) == os.fspath(folder):
                    self.assertTrue(os.path.exists(led), f"{document}: {link}")

    def test_a_shared_library_exports_its_calls(self):
        for library in TOLD:
            said = run("nm", "-D", "--defined-only", self.prefix / "lib" / f"lib{library}.so").stdout
            names = sorted(it.split()[2] for it in said.splitlines())
            self.assertEqual(names, libraries.calls(libraries.header(library)))

    @needs("man")
    def test_the_manual_is_found(self):
        for page in installed.PAGES:
            found = run("man", "-w", page[:-2], env={**self.env, "MANPATH": str(self.prefix / "share" / "man")})
            self.assertEqual(found.stdout, f"{self.prefix}/share/man/man1/{page}\n")

    def test_tests_stay_away(self):
        self.assertEqual([it for it in tree(self.prefix) if "test" in it or "__pycache__" in it], [])


class Moved(Installing):
    def test_it_may_be_moved_and_nothing_of_it_stays(self):
        self.installs()
        moved = self.room / "moved"
        self.prefix.rename(moved)
        self.assertEqual(run(moved / "bin" / "sfi-cc", "--help").returncode, 0)
        self.assertEqual([it for it in moved.rglob("*") if it.is_symlink() and not it.exists()], [])
        done = self.install("--remove", moved)
        self.assertEqual((done.returncode, done.stderr), (0, ""))
        self.assertEqual(tree(moved), [])


class Removing(Installing):
    def test_what_others_made_stays(self):
        for place in ("bin/other", "share/man/man1/other.1", "include/other/other.h"):
            (self.prefix / place).parent.mkdir(parents=True, exist_ok=True)
            (self.prefix / place).write_text("other", encoding="utf-8")
        (self.prefix / "lib").mkdir()  # there before, and empty
        before = tree(self.prefix)
        self.installs()
        (self.prefix / "share" / "suygapid" / "tools" / "own").write_text("own", encoding="utf-8")
        self.assertEqual(self.install("--remove", self.prefix).returncode, 0)
        kept = ["share/suygapid", "share/suygapid/tools", "share/suygapid/tools/own"]
        self.assertEqual(tree(self.prefix), sorted([*before, *kept]))

    def test_where_nothing_is_installed(self):
        done = self.install("--remove", self.prefix)
        self.assertEqual((done.returncode, done.stderr), (1, f"install: nothing is installed below {self.prefix}\n"))

    def test_another_file_is_never_written_over(self):
        place = self.prefix / "include" / "sfi.h"
        place.parent.mkdir(parents=True)
        place.write_text("mine", encoding="utf-8")
        done = self.install(self.prefix)
        self.assertEqual((done.returncode, done.stderr),
                         (1, f"install: {place} is there, and no installation made it: nothing is changed\n"))
        self.assertEqual((tree(self.prefix), place.read_text(encoding="utf-8")), (["include", "include/sfi.h"], "mine"))

    def test_a_second_one_replaces_the_first(self):
        self.installs()
        before = tree(self.prefix)
        noted = self.prefix / installed.NOTED
        (self.prefix / "lib" / "libsfi_c.so.0.0.9").write_text("older", encoding="utf-8")
        (self.prefix / "lib" / "older").mkdir()
        noted.write_text(noted.read_text(encoding="utf-8") + "lib/libsfi_c.so.0.0.9\nlib/older/\n", encoding="utf-8")
        (self.prefix / "bin" / "sfi").write_text("damaged", encoding="utf-8")
        self.installs()
        self.assertEqual(tree(self.prefix), sorted([*before, "lib/older"]))
        self.assertEqual(run(self.prefix / "bin" / "sfi", "check", given=SMALLEST).stdout, ACCEPTED)
        self.assertEqual(self.install("--remove", self.prefix).returncode, 0)
        self.assertEqual(tree(self.prefix), [])

    def test_one_that_stopped_half_way_can_be_removed(self):
        lib = self.prefix / "lib"
        lib.mkdir(parents=True)
        (lib / "pkgconfig").write_text("a file where a folder has to be", encoding="utf-8")
        before = tree(self.prefix)
        done = self.install(self.prefix)
        self.assertEqual(done.returncode, 1)
        self.assertIn("pkgconfig", done.stderr)
        self.assertEqual(self.install("--remove", self.prefix).returncode, 0)
        self.assertEqual(tree(self.prefix), before)


@unittest.skipUnless(all(it.is_file() for it in release.MADE), "the page or node's module isn't made: tools/build_page.py, tools/build_node.py")
@unittest.skipUnless(os.path.isfile(libraries.built("sfi_tool_c")), "the library of all commands isn't built: tools/build_library.py sfi_tool_c")
@unittest.skipIf(NO_FILES, f"suygapid_check.c and suygapid_run.c can't be made: there is no {' and no '.join(NO_FILES)}")
@needs("node", "rt")
class Scratch(Installing):
    """A scratch repository with the files of this one, and what is built here. It is made once: a test that changes a file restores
    it."""

    @classmethod
    def setUpClass(cls):
        room = tempfile.TemporaryDirectory()
        cls.addClassCleanup(room.cleanup)
        cls.top = cls.repository(pathlib.Path(room.name) / "top")

    @classmethod
    def repository(cls, top):
        listed = subprocess.run(["git", "-C", TOP, "ls-files", "-z", "--cached", "--others", "--exclude-standard"],
                                capture_output=True, check=False)
        if listed.returncode:
            raise unittest.SkipTest("this isn't a repository of git")
        headers = [os.path.relpath(libraries.header(it), TOP) for it in libraries.HEADERS]
        others = [f"crates/{it}/{file}" for it, files in libraries.C_FILES.items() for file in files]
        for path in {*filter(None, listed.stdout.decode().split("\0")), *headers, *others}:
            if (TOP / path).is_file():
                (top / path).parent.mkdir(parents=True, exist_ok=True)
                shutil.copy(TOP / path, top / path)
        env = {**os.environ, "GIT_COMMITTER_DATE": "2026-11-25T12:00:00Z"}
        for words in (["init", "-q"], ["add", "-A"], ["-c", "user.name=a", "-c", "user.email=a@b", "commit", "-qm", "all"]):
            subprocess.run(["git", "-C", top, *words], env=env, check=True)
        # The last are those of which a release's suygapid_check.c and suygapid_run.c are made, and the latter, which takes a minute; the
        # library of all commands, and those that are linked here.
        more = map(pathlib.Path, (checker_file.LIBRARY, wasm_module.kept_path("sfi_run"), runtime_file.TARGET, libraries.built("sfi_tool_c"),
                                  *(it for crate in libraries.HEADERS for it in libraries.make(crate)), *libraries.native_there()))
        for path in [*installed.built(), *release.MADE, *(it for it in more if it.is_file())]:
            place = top / path.relative_to(TOP)
            place.parent.mkdir(parents=True, exist_ok=True)
            shutil.copy(path, place)
        return top

    def release(self):
        """A release with a log that says that all is proved."""
        log = self.write("log", test_evidence.log_of(definitions.crate_names()) + "1 passed, 0 failed\n")
        return run(sys.executable, self.top / "tools" / "release.py", *WITHOUT, "--log", log, self.room / "made")

    @contextlib.contextmanager
    def changed(self, path, data=None):
        """Has a file hold these bytes meanwhile, or its own, with the time as they are put back."""
        place, kept = self.top / path, (self.top / path).read_bytes()
        mode, time = place.stat().st_mode, place.stat().st_mtime
        try:
            place.write_bytes(kept if data is None else data)
            yield place
        finally:
            place.write_bytes(kept)
            place.chmod(mode)
            os.utime(place, (time, time))

    def test_a_release_is_used(self):
        done = self.release()
        with tarfile.open(done.stdout.strip()) as tar:
            owners = {(it.uid, it.gid, it.mtime) for it in tar}
            tar.extractall(self.room)
        self.assertEqual(owners, {(0, 0, 1795608000)})
        top = self.room / f"suygapid-{version.version()}-x86_64-linux"
        sums = run("sha256sum", "--quiet", "-c", "SHA256SUMS", cwd=top)
        self.assertEqual((sums.returncode, sums.stdout), (0, ""))
        commit = run("git", "-C", self.top, "rev-parse", "--short=12", "HEAD").stdout.strip()
        self.assertEqual(json.loads((top / "built.json").read_text(encoding="utf-8"))["commit"], commit)
        env = {name: value for name, value in os.environ.items() if name != "SFI"}
        checked = run(top / "sfi", "check", given=SMALLEST, env={**env, "PATH": "/usr/bin:/bin"})
        self.assertEqual((checked.stdout, checked.stderr), (ACCEPTED, ""))
        self.use_as_a_newcomer(top, {**env, "PATH": "/usr/bin:/bin"})
        self.installs(top=top)
        self.assertEqual(run(self.prefix / "bin" / "sfi", "check", given=SMALLEST).stdout, ACCEPTED)
        self.installs(top=TOP)  # the repository in place of the release

    def use_as_a_newcomer(self, top, env):
        """Builds and runs a program as a process, and looks for the page. The files of C are those that release.py itself tried."""
        built = run(top / "sfi", "build", given=(TOP / "examples" / "hi.s").read_text(encoding="utf-8"), env=env)
        ran = run(top / "sfi", "exec", self.write("hi.hex", built.stdout), given="x", env=env)
        self.assertEqual((ran.returncode, ran.stdout, ran.stderr), (105, "Hi", ""))
        for name in ("index.html", "made.js", "sfi.wasm", "sfi.wasm.js"):
            self.assertTrue((top / "page" / name).is_file(), name)
        self.judge_the_evidence(top, env)

    def judge_the_evidence(self, top, env):
        """The page that a release has is of the release's files, and where none can be made a line says where it is."""
        judged = run(top / "tools" / "verify_evidence.py", top / evidence.RELEASED, env=env)
        self.assertEqual((judged.returncode, judged.stdout.splitlines()[-1]), (0, "yes"), judged.stdout)
        for words in ([], [top / "evidence" / "ci.log"], ["none"]):
            done = run(top / "sfi", "evidence", *words, env={**env, "PATH": "/usr/bin:/bin"})
            self.assertEqual((done.returncode, done.stdout, done.stderr.count("\n")), (1, "", 1), done.stderr)
            self.assertIn("this release's page is evidence/page.txt", done.stderr)

    def test_what_is_not_committed_is_not_released(self):
        with self.changed("README.md", b"changed"):
            done = self.release()
        self.assertEqual((done.returncode, done.stderr), (1, "release.py: not all is committed: git status\n"))

    def test_what_is_old_is_not_released(self):
        with self.changed("crates/sfi/out/sfi") as program:
            os.utime(program, (1, 1))
            done = self.release()
        self.assertEqual((done.returncode, done.stderr), (1, "release.py: crates/sfi/out/sfi is older than a source of it\n"))

    def test_what_does_not_run_is_not_released(self):
        rows = [("page/sfi.wasm", b"", "page/sfi.wasm has 0 bytes"), ("page/sfi.wasm.js", b"", "page/sfi.wasm.js has 0 bytes"),
                ("bindings/node/sfi_run.wasm", b"\0", "nothing is released: bindings/node/sfi_run.wasm doesn't say"),
                ("crates/sfi/out/sfi", b"#!/bin/sh\n", "nothing is released: crates/sfi/out/sfi doesn't say")]
        for path, data, said in rows:
            with self.subTest(said):
                with self.changed(path, data):
                    done = self.release()
                self.assertEqual(done.returncode, 1)
                self.assertRegex(done.stderr, rf"(?m)^release\.py: {re.escape(said)}")
                self.assertFalse((self.room / "made").exists())

    def test_what_is_not_built_is_told(self):
        with self.changed("crates/sfi_c/out/libsfi_c.a") as library:
            library.unlink()
            self.assertEqual(self.release().stderr, "release.py: crates/sfi_c/out/libsfi_c.a isn't built\n")
            done = self.install(self.prefix, top=self.top)
        self.assertEqual(done.returncode, 1)
        self.assertIn("crates/sfi_c/out/libsfi_c.a isn't built: tools/build_library.py", done.stderr)
        self.assertFalse(self.prefix.exists())
