"""Tests of tools/documents.py: README.md and sfi.1 say of the commands what the program says. README files of folders
name all files there, links lead to files and headings that are there, and all documents keep CONTRIBUTING.md's limit of words."""
import os
import re
import subprocess
import unittest

import documents
import testing

LIST = '''const PLACES: OptionRow = OptionRow {
    name: "at",
    takes: Takes::Texts("PLACE"),
    about: "Runs",
};
const COMMANDS: &[CommandRow] = &[
    // those that go
    walking::WALK,
];
'''
FILES = {"walking": r'''const WALK: CommandRow = CommandRow {
    name: "walk",
    about:
        "Walks \"far\"",
    options: &[PLACES, OptionRow { name: "fast", takes: Takes::Nothing, about: "Runs" }],
    notes: "\
Reads a way-mark, and prints
  a line

Exit status:
  0  done",
};
'''}


class Documents(unittest.TestCase):
    def setUp(self):
        self.found = documents.commands(LIST, FILES)

    def test_both_say_what_the_program_says(self):
        for path, text in documents.wanted().items():
            self.assertEqual(path.read_text(encoding="utf-8"), text, f"{path.name}: tools/documents.py --write")

    def test_all_commands_are_found(self):
        self.assertLessEqual({"check", "build", "map", "dis", "run", "convert"}, {it.name for it in documents.all_commands()})

    def test_a_table(self):
        wanted = '| `sfi walk [--at PLACE].. [--fast]` | Walks "far" |\n'
        self.assertTrue(documents.with_table("| command | x |\n|--|--|\n| old | row |\n\nend\n", self.found).endswith(wanted + "\nend\n"))

    def test_a_manual(self):
        page = documents.with_sections(".SH NAME\nx\n.SH SYNOPSIS\nold\n.SH COMMANDS\nold\n.SH OPTIONS\nold\n.SH FILES\n", self.found)
        for wanted in (".B sfi walk\n.RB [ \\-\\-at\n.IR PLACE ].\\|.\n.RB [ \\-\\-fast ]\n", "Reads a way\\-mark, and prints\n.nf\na line\n.fi\n",
                       '.BI \\-\\-at " PLACE"\n.RB ( walk )\nRuns.\n', ".SH FILES\n"):
            self.assertIn(wanted, page)
        self.assertNotIn("old", page)
        self.assertNotIn("Exit status", page)


def files_of_git(case, folder, *patterns):
    """The files of the repository below a folder that have one of these patterns, without which all."""
    listed = subprocess.run(["git", "-C", folder, "ls-files", "-z", *patterns], capture_output=True, check=False)
    if listed.returncode:
        case.skipTest("this isn't a repository of git")
    return [it for it in listed.stdout.decode().split("\0") if it]


class Words(unittest.TestCase):
    def test_there_are_no_more_than_the_limit(self):
        rules = (testing.TOP / "CONTRIBUTING.md").read_text(encoding="utf-8")
        limit = int(re.search(r"all\s+Markdown\s+files\s+and\s+manual\s+pages\s+have\s+at\s+most\s+([\d,]+)\s+words", rules)[1].replace(",", ""))
        paths = [testing.TOP / it for it in files_of_git(self, testing.TOP, "*.md", "*.1")]
        words = sum(len(path.read_text(encoding="utf-8").split()) for path in paths if path.exists())
        self.assertLessEqual(words, limit)


def prose(path):
    """A document without its blocks of code."""
    return re.sub(r"^```.*?^```", "", path.read_text(encoding="utf-8"), flags=re.DOTALL | re.MULTILINE)


def anchors(path):
    """The names by which links know a document's headings."""
    headings = (re.sub(r"\[([^]]*)\]\([^)]*\)", r"\1", it) for it in re.findall(r"^#+ (.*)", prose(path), re.MULTILINE))
    return {re.sub(r"[^\w -]", "", it.lower()).replace(" ", "-") for it in headings}


class Links(unittest.TestCase):
    def test_each_leads_to_something(self):
        for name in files_of_git(self, testing.TOP, "*.md"):
            path = testing.TOP / name
            for target, anchor in re.findall(r"\]\((?!http)([^)\s#]*)#?([^)\s]*)\)", prose(path) if path.exists() else ""):
                with self.subTest(document=name, link=f"{target}#{anchor}"):
                    place = (path.parent / target) if target else path
                    self.assertTrue(os.path.exists(place))
                    self.assertTrue(not anchor or place.suffix != ".md" or anchor in anchors(place))


class Folders(unittest.TestCase):
    """README files that have a line, `- NAME: what it is`, for each file and folder beside them but tests (`test_*`)."""

    def test_each_file_has_a_line(self):
        for folder in ("device", "examples", "examples/c", "examples/device", "tools", "tools/suygapid"):
            with self.subTest(folder=folder):
                names = {it.split("/")[0] for it in files_of_git(self, testing.TOP / folder)}
                text = (testing.TOP / folder / "README.md").read_text(encoding="utf-8")
                named = re.findall(r"^- `([\w.-]+)/?`: ", text, re.M)
                self.assertEqual(sorted(named), sorted(it for it in names - {"README.md"} if not it.startswith("test_")))


if __name__ == "__main__":
    unittest.main()
