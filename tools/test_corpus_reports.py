"""Tests of what `sfi-corpus report` writes: `tools/unit_tests.py tools`. They are skipped where the library of the checker isn't built."""
import json
import os
import re
import shutil
import subprocess
import sys
import unittest
import xml.etree.ElementTree as ElementTree

from test_corpus import ACCEPTED, LOGIC, REFUSED, SHORT, Corpus
from testing import TOOLS

NOBODY = 65534 if os.geteuid() == 0 else None  # a user who may write nothing here, where the tests' own may write all
COUNTS = ["18 accepted", "2 refused first=V4", "1 no image fault=Short"]
# What `report` takes of pyarrow, which writes what it is handed.
PYARROW = {
    "__init__": """
def string(): return "text"
def int64(): return "number"
def schema(columns): return columns
class Table:
    @staticmethod
    def from_pylist(rows, columns): return [columns, rows]
""",
    "parquet": """
import json
def write_table(table, path):
    with open(path, "w") as file:
        json.dump(table, file)
""",
}


class Reports(Corpus):
    def setUp(self):
        super().setUp()
        self.corpus("check", self.images(20), self.image("<&>\x01.image", SHORT), self.path("none"))

    def test_counts(self):
        lines = self.corpus("report")[1]
        self.assertEqual([re.sub(f" {LOGIC}", "", it) for it in lines], COUNTS)

    def test_the_exact_verdicts(self):
        verdicts = {it["file"]: it["verdict"] for it in self.told() if "verdict" in it}
        self.assertEqual(len(verdicts), 21)
        for name, verdict in (("many/00000.image", ACCEPTED), ("many/00009.image", REFUSED), ("<&>\x01.image", "layout fault 3 Short")):
            self.assertEqual(verdicts[self.path(name)], verdict)

    def test_a_database_that_cannot_be_written(self):
        """Nobody's own process reads it, since root may write all; nothing changes, and what is to be written is refused."""
        self.room.chmod(0o755)
        python = shutil.which("python3", path="/usr/bin")  # which each user can run
        if not python or self.run_words(python, TOOLS / "sfi-corpus", "--help", user=NOBODY)[0]:
            self.skipTest("/usr/bin/python3 isn't there, or nobody can't run the tool")
        self.image("copied/corpus.sqlite", (self.room / "corpus.sqlite").read_bytes())
        self.addCleanup((self.room / "copied").chmod, 0o755)
        for path, mode in ((self.room / "copied" / "corpus.sqlite", 0o444), (self.room / "copied", 0o555)):
            path.chmod(mode)
        before = self.listed("copied")
        words = [python, TOOLS / "sfi-corpus", "report", "--database", "copied/corpus.sqlite"]
        status, lines, said = self.run_words(*words, user=NOBODY)
        self.assertEqual((status, [re.sub(f" {LOGIC}", "", it) for it in lines], said), (0, COUNTS, ""))
        self.assertEqual(self.listed("copied"), before)
        status, _, said = self.run_words(python, TOOLS / "sfi-corpus", "check", "--database", "copied/corpus.sqlite", "none", user=NOBODY)
        self.assertEqual((status, said), (5, "sfi-corpus: copied/corpus.sqlite: attempt to write a readonly database\n"))
        self.assertEqual(self.corpus("merge", "new", "copied/corpus.sqlite"), (0, [], ""))
        self.assertEqual(len(self.told("new")), 22)

    def listed(self, folder):
        """The names, times and lengths of the files in a folder."""
        return sorted((it.name, it.stat().st_mtime_ns, it.stat().st_size) for it in (self.room / folder).iterdir())

    def test_a_report_leaves_nothing(self):
        before = self.listed(".")
        self.corpus("report")
        self.assertEqual(self.listed("."), before)

    def test_parquet_by_a_stand_in(self):
        """What pyarrow is handed: columns with their types, and the rows."""
        for name, text in PYARROW.items():
            self.write(f"pyarrow/{name}.py", text)
        status, _, said = self.run_words(TOOLS / "sfi-corpus", "report", "--parquet", "x.parquet", env={**self.env, "PYTHONPATH": self.folder})
        self.assertEqual((status, said), (0, ""))
        columns, rows = json.loads(self.read("x.parquet"))
        self.assertEqual(columns, [["file", "text"], ["status", "number"], ["sha256", "text"], ["verdict", "text"], ["sandboxes", "number"],
                                   ["bundles", "number"], ["findings", "number"], ["rule", "text"], ["sandbox", "number"], ["at", "text"],
                                   ["fault", "text"], ["failure", "text"], ["version", "text"], ["commit", "text"], ["logic", "text"]])
        self.assertEqual((len(rows), [it["verdict"] for it in rows if it["status"] == 1]), (22, [REFUSED] * 2))
        self.assertLessEqual({key for it in rows for key in it}, {name for name, _ in columns})

    def test_the_page(self):
        self.corpus("report", "--page", "page.html")
        page = ElementTree.fromstring(self.read("page.html"))
        cells = [["".join(it.itertext()) for it in row] for row in page.iter("{http://www.w3.org/1999/xhtml}tr")]
        for row in (["accepted", "18", ""], ["refused", "2", ""], ["no image", "1", ""], ["V4", "2", ""], ["layout fault Short", "1", ""]):
            self.assertIn(row, cells)
        self.assertIn([self.path("none"), "No such file or directory"], cells)
        self.assertIn([self.path("many/00009.image"), REFUSED], cells)

    def test_parquet(self):
        python = next((it for it in (sys.executable, "/usr/bin/python3") if subprocess.run([it, "-c", "import pyarrow"], capture_output=True,
                                                                                         check=False).returncode == 0), None)
        if not python:
            status, _, said = self.corpus("report", "--parquet", "x.parquet")
            self.assertEqual((status, said), (5, "sfi-corpus: Parquet wants pyarrow, which isn't there\n"))
            self.skipTest("no Python has pyarrow")
        self.run_words(python, TOOLS / "sfi-corpus", "report", "--parquet", "x.parquet")
        told = self.run_words(python, "-c", "import pyarrow.parquet as p; t = p.read_table('x.parquet').to_pylist();"
                                            "print(len(t), sum(it['status'] == 0 for it in t), [it['rule'] for it in t if it['rule']])")
        self.assertEqual(told[1], ["22 18 ['V4', 'V4']"])


if __name__ == "__main__":
    unittest.main()
