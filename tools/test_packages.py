"""Tests of tools/packages.py: `tools/unit_tests.py tools test_packages.py`. Each package is installed and used in an empty folder,
by tools/package_trial.py, which also has to tell what was damaged. They are skipped where what the packages are made of isn't built."""
import io
import os
import pathlib
import re
import shutil
import subprocess
import tarfile
import tempfile
import unittest
import zipfile
from unittest import mock

import package_trial
import packages
import runtime_file
import version
from suygapid import native
from testing import by_turns, needs

MAKERS = {".whl": packages.wheel, ".tgz": packages.tarball, ".crate": packages.crate, ".deb": packages.debian}
# The crate compiles the runtime: here without optimization, which takes a fraction of the time. tools/release.py tries it as it is.
COMPILER = '#!/bin/sh\nfor word; do shift; [ "$word" = -O2 ] || set -- "$@" "$word"; done\nexec cc -O0 "$@"\n'
COMPILED = {"tools/suygapid/made/a library/it.a": b"compiled"}  # what a release hands on


def rezipped(path, target, change):
    """A copy of a wheel, each file of which `change` gives or leaves out, by its name and bytes."""
    with zipfile.ZipFile(path) as old, zipfile.ZipFile(target, "w") as new:
        for name in old.namelist():
            data = change(name, old.read(name))
            if data is not None:
                new.writestr(name, data)


def repacked(path, target, change):
    """The same of a tar file."""
    with tarfile.open(path) as old, tarfile.open(target, "w:gz") as new:
        for entry in old:
            data = change(entry.name, old.extractfile(entry).read())
            if data is not None:
                entry.size = len(data)
                new.addfile(entry, io.BytesIO(data))


def without(place):
    return lambda name, data: None if name.endswith(place) else data


def emptied(place):
    return lambda name, data: b"" if name.endswith(place) else data


def made_in(folder, ending):
    """The package with this ending, made in a folder; that for Debian as a release makes it."""
    return MAKERS[ending](folder, *[COMPILED] * (ending == ".deb"))


class Packages(unittest.TestCase):
    @classmethod
    def setUpClass(cls):
        room = tempfile.TemporaryDirectory()
        cls.addClassCleanup(room.cleanup)
        cls.room, cls.made = pathlib.Path(room.name), {}
        (cls.room / "cc").write_text(COMPILER, encoding="utf-8")
        (cls.room / "cc").chmod(0o755)
        native.make()  # with the usual compiler: it stays
        patched = mock.patch.dict(os.environ, CC=str(cls.room / "cc"))
        patched.start()
        cls.addClassCleanup(patched.stop)

    def package(self, ending):
        """The package with this ending, made once."""
        if ending == ".crate" and not runtime_file.is_fresh(runtime_file.TARGET):
            self.skipTest("suygapid_run.c isn't made, or older than a source: tools/runtime_file.py")
        lacking = packages.missing(MAKERS[ending])
        if lacking:
            self.skipTest(f"{' and '.join(lacking)} isn't there")
        if ending not in self.made:
            self.made[ending] = made_in(self.room, ending)
        return self.made[ending]

    def need_what_tries(self, ending):
        lacking = package_trial.missing(ending)
        if lacking:
            self.skipTest(f"{' and '.join(lacking)} isn't there")

    def tried(self, path, said=None):
        """Tries a package, of which this has to be said, or nothing."""
        self.need_what_tries(path.suffix)
        found = package_trial.faults(path)
        self.assertEqual([it.partition(": ")[2][:len(said or "")] for it in found], [said] if said else [], found)

    def damaged(self, ending, change):
        """The package with something changed by one of the functions above."""
        path = self.package(ending)
        (self.room / "damaged").mkdir(exist_ok=True)
        target = self.room / "damaged" / path.name
        (rezipped if ending == ".whl" else repacked)(path, target, change)
        return target

    def test_names(self):
        found = sorted(self.package(it).name for it in MAKERS)
        whole = f"{version.NAME}-{version.version()}"
        self.assertEqual(found, sorted([f"{whole}-py3-none-manylinux_2_34_x86_64.whl", f"{whole}.tgz", f"{whole}.crate",
                                        f"{version.NAME}_{version.version()}_amd64.deb"]))

    def test_the_wheel(self):
        self.tried(self.package(".whl"))

    def test_the_tarball(self):
        self.tried(self.package(".tgz"))

    def test_the_crate(self):
        self.tried(self.package(".crate"))

    def test_the_package_for_debian(self):
        self.tried(self.package(".deb"))

    def test_damages(self):
        for ending, change, said in ((".whl", without("/py.typed"), "python fails: AssertionError: py.typed isn't there"),
                                     (".whl", without("/libsfi_run.so"), "python fails: OSError"),
                                     (".whl", without("/libsfi_c.so"), "sfi-check fails: sfi-check: libsfi_c.so"),
                                     (".tgz", emptied(".wasm"), "node fails"), (".tgz", without(".d.mts"), "node fails"),
                                     (".crate", without(".c"), "cargo fails")):
            with self.subTest(said, ending=ending):
                self.tried(self.damaged(ending, change), said)

    def test_a_damaged_package_for_debian(self):
        self.need_what_tries(".deb")
        whole = self.room / "unpacked"
        subprocess.run(["dpkg-deb", "--extract", self.package(".deb"), whole], check=True)
        for path, data in COMPILED.items():
            self.assertEqual((whole / "usr" / "share" / "suygapid" / path).read_bytes(), data)
        for place, step, said in (("usr/include/sfi.h", package_trial.by_package, "gcc fails"), ("usr/lib/cmake", package_trial.by_cmake, "cmake fails"),
                                  ("usr/lib/pkgconfig/sfi_run.pc", package_trial.by_package, "pkg-config fails"), ("usr/include/sfi_run_native.h", package_trial.by_package, "gcc fails"),
                                  ("usr/share/man/man1/sfi-cc.1", package_trial.by_places, "usr/share/man/man1/sfi-cc.1 isn't there"),
                                  ("usr/share/zsh", package_trial.by_places, "usr/share/zsh/vendor-completions/_sfi isn't there"),
                                  ("usr/share/suygapid/tools/suygapid", package_trial.by_tools, "sfi-cc fails"), ("usr/bin/sfi", package_trial.by_program, "sfi isn't there")):
            with self.subTest(said), tempfile.TemporaryDirectory() as room:
                top = pathlib.Path(room) / "all"
                shutil.copytree(whole, top, symlinks=True, copy_function=os.link)
                gone = top / place
                shutil.rmtree(gone) if gone.is_dir() else gone.unlink()
                with self.assertRaisesRegex(package_trial.Fault, f"^{re.escape(said)}"):
                    step(top, top / "usr")

    def test_the_same_files_make_the_same_bytes(self):
        for ending in by_turns([*MAKERS], 2):
            with self.subTest(ending), tempfile.TemporaryDirectory() as room:
                made = self.package(ending).read_bytes()
                self.assertEqual(made_in(pathlib.Path(room), ending).read_bytes(), made)

    @needs("pip")
    def test_what_pip_says_of_the_wheel(self):
        """It names the types, and installs for the machine that the wheel is for alone."""
        with zipfile.ZipFile(self.package(".whl")) as archive:
            told = archive.read(f"{version.NAME}-{version.version()}.dist-info/METADATA").decode()
        self.assertIn("\nClassifier: Typing :: Typed\n", told)
        done = subprocess.run(["pip", "download", "--quiet", "--no-index", "--no-deps", "--platform", "manylinux_2_28_x86_64", "--only-binary", ":all:",
                               "--dest", self.room / "none", self.package(".whl")], capture_output=True, text=True, check=False)
        self.assertIn("is not a supported wheel on this platform", done.stderr)


if __name__ == "__main__":
    unittest.main()
