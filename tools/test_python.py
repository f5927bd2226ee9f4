"""Tests of the Python of this repository by linters: `tools/unit_tests.py tools test_python.py`. It has nothing that pyflakes
complains of, mypy finds no type of the packages suygapid and sfi_check wrong, and scripts find the first of these by the same line."""
import re
import subprocess
import unittest

from testing import TOOLS, TOP, needs

WORDS = ["--explicit-package-bases", "--ignore-missing-imports", "--cache-dir=/dev/null"]
PACKAGES = {"suygapid": TOOLS, "sfi_check": TOP / "bindings" / "python"}
LINE = 'sys.path.insert(0, os.path.join(TOP, "tools"))'
FOLDERS = ("bench", "examples", "fuzz", "page")  # of the scripts that have it


class Linters(unittest.TestCase):
    def said(self, *words, folder=TOOLS):
        done = subprocess.run(words, cwd=folder, capture_output=True, text=True, check=False)
        return done.stdout + done.stderr

    def scripts(self):
        listed = subprocess.run(["git", "-C", TOP, "ls-files"], capture_output=True, text=True, check=False)
        if listed.returncode:
            self.skipTest("this isn't a repository of git")
        paths = [TOP / it for it in listed.stdout.splitlines() if not it.startswith("crates/")]
        return [it for it in paths if it.suffix == ".py" or not it.suffix and it.read_bytes().startswith(b"#!/usr/bin/env python3\n")]

    @needs("pyflakes3")
    def test_names(self):
        self.assertEqual(self.said("pyflakes3", *self.scripts()), "")

    def test_folders_of_modules(self):
        for path in self.scripts():
            if path.relative_to(TOP).parts[0] in FOLDERS:
                found = re.findall(r"^ *(sys\.path\b.*)", path.read_text(encoding="utf-8"), re.MULTILINE)
                self.assertIn(found, ([], [LINE]), path)

    @needs("mypy")
    def test_types(self):
        for package, folder in PACKAGES.items():
            self.assertIn("Success", self.said("mypy", *WORDS, "-p", package, folder=folder))


if __name__ == "__main__":
    unittest.main()
