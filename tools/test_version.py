"""Tests that all that states the version states the same one, that each tool tells it, and that a manual page has each option of its
tool: `tools/unit_tests.py tools`."""
import json
import re
import subprocess
import unittest

import installed
import version
from sfi_check import _built  # which installed.py finds
from testing import TOOLS


class Version(unittest.TestCase):
    def test_each_place_states_the_same(self):
        for place in version.PLACES:
            with self.subTest(file=place[0]):
                self.assertEqual(version.stated(place)[1][1], version.version())

    def test_each_number_is_the_version(self):
        major, minor, patch = (int(part) for part in version.version().split("."))
        for place in version.NUMBERS:
            with self.subTest(file=place[0]):
                self.assertEqual(int(version.stated(place)[1][1], 0), major * 65536 + minor * 256 + patch)

    def test_each_package_has_the_name(self):
        for place in version.NAMES:
            with self.subTest(file=place[0]):
                self.assertEqual(version.stated(place)[1][1], version.NAME)

    def test_the_number_of_a_version(self):
        self.assertEqual(version.number_of("1.2.34"), "0x010222")
        self.assertRaises(SystemExit, version.number_of, "0.256.0")

    def test_no_other_file_states_one(self):
        """Where a text speaks of a version of this one's spelling, it is listed, or isn't a version of this."""
        listed = {file for file, _ in version.PLACES}
        files = subprocess.run(["git", "-C", version.TOP, "grep", "-lF", version.version(), "--", "*.h", "*.rt", "*.toml", "*.1", "*.py"],
                               capture_output=True, text=True, check=False)
        if files.returncode > 1:
            self.skipTest("git says no more of this folder")
        self.assertEqual(set(files.stdout.split()) - listed, set())


class Pages(unittest.TestCase):
    def test_each_option_is_in_the_manual(self):
        for tool in ("sfi-cc", "sfi-check", "sfi-exec", "sfi-gdb", "sfi-image", "sfi-library", "sfi-map", "sfi-move", "sfi-trace"):
            said = subprocess.run([TOOLS / tool, "--help"], capture_output=True, text=True, check=True).stdout
            page = (version.TOP / "docs" / f"{tool}.1").read_text(encoding="utf-8").replace("\\-", "-")
            for option in set(re.findall(r"^  (-[\w-]+)", said, re.MULTILINE)) - {"-h"}:
                with self.subTest(tool=tool, option=option):
                    self.assertIn(option, page)


class Tools(unittest.TestCase):
    def test_each_tells_of_what_was_built(self):
        """What `./sfi --version` says, also where no library is built; sfi-check and sfi-corpus, which tell of their library, are
        tried by test_corpus.py."""
        built = _built.line_of(json.loads(_built.noted(str(version.TOP / "crates" / "sfi" / "out" / "sfi"))))
        self.assertRegex(built, r"^commit=\w+(\+\w+)? logic=\w+$")
        for tool in set(installed.TOOLS) - {"sfi-check", "sfi-corpus"}:
            done = subprocess.run([TOOLS / tool, "--version"], capture_output=True, text=True, check=False)
            self.assertEqual((done.returncode, done.stdout, done.stderr), (0, f"{tool} version={version.version()} {built}\n", ""))
