"""Tests of tools/edits.py, over a small repository and a kit of their own."""
import os
import shutil
import subprocess
import tempfile
import unittest

from toolchain import TOP

# What each edit's new text stands for: the prover refuses the function, or only the whole crate; nobody does; or the text isn't read.
EDITS = {"low/one_is_two": "refused", "low/two_is_one": "elsewhere", "high/three_is_four": "refused", "high/three_has_most": "refused",
         "high/five_is_six": "refused", "top/six_is_none": "refused"}
# The text in whose place that comes, but for those in a method.
OLD = {"low/one_is_two": "    body of one", "high/three_is_four": "    body of three", "high/three_has_most": "const MOST: u32 = 4;",
       "top/six_is_none": "    body of six"}
SOURCE = """ghost use Rattle.std.specs.Prelude.{◌≡◌};
ghost use Rattle.%s.specs.Words.{word};
const MOST: u32 = 4;
fn %s() {
    body of %s
}

impl<'a> Shape for Square<'a> {
    pub(crate) fn side()
        ensures { word }
    {
        4
    }
}
"""
# Its check takes --only, and says what the new text stands for.
KIT = '''
import os, re, types

class Crate:
    def __init__(self, folder, root, known):
        self.folder, self.name, self.rlib = folder, os.path.basename(folder), f"{folder}/out/rlib/it.rlib"
    def below(self):
        return [] if self.name == "low" else [Crate(f"{os.path.dirname(self.folder)}/low", "", {})]
    def build_rlib(self, flags, anew):
        print("builds", self.name)
        return 0

rtlib = types.SimpleNamespace(Crate=Crate, guarded=lambda: [])

def read_edit(path, folder):
    with open(path, encoding="utf-8") as file, open(f"{folder}/src/lib.rt", encoding="utf-8") as source:
        old, new = re.findall("^(?:old|new): (.*)", file.read(), re.MULTILINE)
        return {"src/lib.rt": source.read().replace(old, new)}, None

def unread(line, texts):
    return "nonsense" in line

def checked(crate, texts, flags, kept):
    text = texts.get("src/lib.rt", "")
    asked = [word for word in flags[2:] if word != "--only"]
    head, *functions = re.split("^(?=fn |    pub)", text, flags=re.MULTILINE)
    wrong = [it for it in functions if "refused" in head + it or "nonsense" in it]
    unproved = [it for it in asked if any(f"fn {it.split('::')[-1]}(" in part for part in wrong)]
    how = {"three": "not proved; it calls `side`, which is not proved" if "caller" in text else "not proved",
           "SquareShape::side": "no proof: expected answers in ./proofs; `search` did not prove `returns`"}
    lines = [f"src/lib.rt:4:1: {'nonsense' if 'nonsense' in text else 'not so'}"] + [f"fn {crate.name}::{it}: {how.get(it)}" for it in unproved]
    with open(os.path.join(os.environ["HOME"], "checked"), "a") as log:
        print(*asked, file=log)
    proved = 0 if os.environ.get("NONE_PROVED") else len(asked) - len(unproved)
    return types.SimpleNamespace(returncode=int(bool(unproved)), stdout="\\n".join([*lines, f"only={len(asked)} proved={proved}", ""]))

def must_fail(crate, path, flags):
    text, name = read_edit(path, crate.folder)[0]["src/lib.rt"], f"must-fail {crate.name}/{os.path.basename(path)}"
    return "elsewhere" in text, f"{name}: {'refused in the whole crate' if 'elsewhere' in text else 'NOT REFUSED'}"
'''
TWO_DAYS = 172800


def written(path, text):
    os.makedirs(os.path.dirname(path), exist_ok=True)
    with open(path, "w", encoding="utf-8") as file:
        file.write(text)


class Edits(unittest.TestCase):
    def setUp(self):
        room = tempfile.TemporaryDirectory()
        self.addCleanup(room.cleanup)
        self.room, self.top = room.name, f"{room.name}/repository"
        written(f"{self.top}/crates.txt", "# a comment: none\nlow:\nhigh: low\ntop: low\nbare:\n")
        for crate, function in (("low", "one"), ("high", "three"), ("top", "six"), ("bare", "none")):
            written(f"{self.top}/crates/{crate}/src/lib.rt", SOURCE % (crate, function, function))
            written(f"{self.top}/crates/{crate}/specs/Words.antt", "word : ℕ\n")
            os.makedirs(f"{self.top}/crates/{crate}/out/rlib/it.rlib")
        for edit, new in EDITS.items():
            self.write_edit(edit, OLD.get(edit, "        4"), new)
        for tool in ("edits.py", "toolchain.py", "build_library.py"):
            os.makedirs(f"{self.top}/tools", exist_ok=True)
            shutil.copy(f"{TOP}/tools/{tool}", f"{self.top}/tools/{tool}")
        written(f"{self.room}/kit/bin/rt", KIT)
        written(f"{self.room}/bin/rt", f"#!/bin/sh\necho {self.room}/kit/START-HERE.md\n")
        os.chmod(f"{self.room}/bin/rt", 0o755)
        self.environment = {**os.environ, "PATH": f"{self.room}/bin:{os.environ['PATH']}", "HOME": self.room}
        self.environment.pop("GATE_BASE", None)
        self.seconds = 1700000000

    def write_edit(self, edit, old, new):
        crate, name = edit.split("/")
        written(f"{self.top}/crates/{crate}/must-fail/{name}.edit", f"# A note.\nfile: src/lib.rt\nold: {old}\nnew: {new}\n")

    def git(self, *words):
        identity = ["-c", "user.name=a", "-c", "user.email=a@b"]
        dated = {**self.environment, "GIT_COMMITTER_DATE": f"{self.seconds} +0000"}
        subprocess.run(["git", *identity, *words], cwd=self.top, env=dated, check=True, stdout=subprocess.DEVNULL)

    def commit(self, later=60):
        self.seconds += later
        self.git("add", "crates", "crates.txt")
        self.git("commit", "-q", "--allow-empty", "-m", "one more")

    def begin(self):
        """A repository whose files are two days old."""
        self.git("init", "-q", "-b", "main")
        self.commit()
        self.commit(TWO_DAYS)

    def run_with(self, *words):
        ran = subprocess.run(["tools/edits.py", *words], cwd=self.top, env=self.environment, capture_output=True, text=True, check=False)
        return ran.returncode, ran.stdout.splitlines(), ran.stderr

    def due(self):
        return self.run_with("--list")[1]

    def in_turns(self):
        """How often each edit is due after six further commits that two days part from all others."""
        found = []
        for _ in range(6):
            self.commit(TWO_DAYS)
            found += self.due()
        return {it: found.count(it) for it in EDITS}

    def change(self, path, text="\n// more\n"):
        with open(f"{self.top}/{path}", "a", encoding="utf-8") as file:
            file.write(text)

    # ---- which are due

    def test_six_commits_try_each_edit_once(self):
        self.begin()
        self.assertEqual(self.in_turns(), dict.fromkeys(EDITS, 1))

    def test_a_file_that_differs(self):
        self.begin()
        self.git("branch", "begun")
        self.change("crates/high/src/lib.rt")
        self.change("crates/top/README.md")
        self.commit()
        for base, times in (("", 1), ("begun", 6)):
            self.environment["GATE_BASE"] = base
            self.assertEqual(self.in_turns(), {it: times if it.startswith("high/") else 1 for it in EDITS})

    def test_a_file_of_the_last_hours_and_one_that_is_not_committed(self):
        self.begin()
        self.change("crates/top/src/lib.rt")
        self.commit()
        self.commit(3600)
        self.change("crates/low/must-fail/one_is_two.edit", "# another note\n")
        self.assertLessEqual({"top/six_is_none", "low/one_is_two"}, set(self.due()))

    def test_what_differs_from_the_branch_of_all(self):
        self.begin()
        self.git("update-ref", "refs/remotes/origin/main", "HEAD")
        self.change("crates/high/must-fail/five_is_six.edit", "# another note\n")
        self.assertEqual(self.in_turns(), {it: 6 if it == "high/five_is_six" else 1 for it in EDITS})

    def test_definitions_that_a_file_names(self):
        self.begin()
        self.git("branch", "begun")
        self.environment["GATE_BASE"] = "begun"
        written(f"{self.top}/crates/top/src/lib.rt", SOURCE % ("low", "six", "six"))
        self.commit()
        self.git("branch", "-f", "begun")
        self.change("crates/low/specs/Words.antt")
        self.change("crates/bare/specs/Words.antt")
        self.assertEqual(self.in_turns(), {it: 1 if it.startswith("high/") else 6 for it in EDITS})

    def test_proofs_and_imports_change_no_edit(self):
        self.begin()
        self.git("branch", "begun")
        self.environment["GATE_BASE"] = "begun"
        written(f"{self.top}/crates/low/proofs/Facts.antt", "a fact\n")
        self.change("crates/high/src/lib.rt", "ghost use Rattle.low.specs.Words.{one};\nmod other;\n")
        self.assertEqual(self.in_turns(), dict.fromkeys(EDITS, 1))

    def test_of_what_changed_so_many(self):
        self.begin()
        self.git("branch", "begun")
        self.environment["GATE_BASE"] = "begun"
        for number in range(70):
            self.write_edit(f"low/more_{number}", "    body of one", "refused")
        self.change("crates/low/src/lib.rt")
        found = self.due()
        self.assertEqual(len(set(found)), len(found))
        self.assertEqual(len([it for it in found[:20] if it.startswith("low/")]), 20)
        self.assertLess(len(found), 56)
        said = self.run_with()[1]
        self.assertEqual(said[:2], [f"edits.py: {len(found)} of 76 must-fail edits are tried, since 2 commits stand here; `rt must-fail` tries all",
                                    f"edits.py: more changed: {72 - len([it for it in found if it.startswith('low/')])} edits wait for their turn"])

    def test_a_base_that_is_none(self):
        self.begin()
        self.environment["GATE_BASE"] = "nowhere"
        self.assertEqual(self.run_with(), (1, [], "edits.py: GATE_BASE is nowhere, which is no commit here\n"))

    def test_no_commits(self):
        self.assertEqual(sorted(self.due()), sorted(EDITS))

    # ---- what becomes of them

    def checks(self):
        """The functions of each check, in the order of their names."""
        with open(f"{self.room}/checked", encoding="utf-8") as file:
            return sorted(file.read().splitlines())

    def test_each_is_tried_by_its_functions(self):
        status, said, _ = self.run_with("high", "low/one_is_two")
        self.assertEqual((status, said[1], said[-1]), (0, "low without edits: 1 functions are proved", "5 passed, 0 failed"))
        refused = "refused, as it must be"
        self.assertEqual(said[2:-1], [f"must-fail low/one_is_two: {refused}: src/lib.rt:4:1: not so", f"must-fail high/five_is_six: {refused}, beside others",
                                      f"must-fail high/three_is_four: {refused}, beside others",
                                      f"must-fail high/three_has_most: {refused}: src/lib.rt:4:1: not so"])
        self.assertEqual(self.checks(), ["SquareShape::side three", "one", "one", "three"])

    def test_what_its_functions_let_through_is_tried_whole(self):
        self.assertEqual(self.run_with("low/two_is_one")[1][2:], ["must-fail low/two_is_one.edit: refused in the whole crate", "2 passed, 0 failed"])

    def test_what_is_let_through_beside_others_is_tried_alone(self):
        for new, status, told in (("elsewhere", 0, "must-fail high/five_is_six.edit: refused in the whole crate"),
                                  ("passes", 1, "FAILED must-fail high/five_is_six.edit: NOT REFUSED")):
            self.write_edit("high/five_is_six", "        4", new)
            found, said, _ = self.run_with("high/five_is_six", "high/three_is_four")
            self.assertEqual((found, said[2:4]), (status, [told, "must-fail high/three_is_four: refused, as it must be, beside others"]))
            self.assertEqual(self.checks()[:2], ["SquareShape::side"] + ["SquareShape::side three"])
            os.remove(f"{self.room}/checked")

    def test_what_may_not_be_proved_since_it_calls_another_is_tried_alone(self):
        self.write_edit("high/three_is_four", "    body of three", "refused caller")
        said = self.run_with("high/five_is_six", "high/three_is_four")[1]
        self.assertEqual(said[2:4], ["must-fail high/five_is_six: refused, as it must be, beside others",
                                     "must-fail high/three_is_four: refused, as it must be: src/lib.rt:4:1: not so"])
        self.assertEqual(self.checks(), ["SquareShape::side three"] * 2 + ["three"])

    def test_what_is_never_tried_beside_others(self):
        """Where an edit of a contract may have another function refused, of two of one function, and one that adds a function."""
        for old, new in (("        ensures { word }", "        ensures { refused }"), ("    body of three", "refused"), ("        4", "4 } fn more() { refused")):
            self.write_edit("high/five_is_six", old, new)
            self.run_with("high/five_is_six", "high/three_is_four")
            self.assertEqual(len(self.checks()), 3, old)
            os.remove(f"{self.room}/checked")

    def test_what_nobody_refuses_and_what_cannot_be_read(self):
        for new in ("passes", "nonsense"):
            self.write_edit("top/six_is_none", "    body of six", new)
            status, said, _ = self.run_with("top")
            self.assertEqual((status, said[2:]), (1, ["FAILED must-fail top/six_is_none.edit: NOT REFUSED", "1 passed, 1 failed"]))

    def test_functions_that_are_not_proved_as_they_are(self):
        self.environment["NONE_PROVED"] = "1"
        status, said, _ = self.run_with("top")
        self.assertEqual((status, said[1], said[-1]), (1, "FAILED top without edits: only=1 proved=0", "1 passed, 1 failed"))

    def test_libraries_that_are_not_there(self):
        lower = f"{self.top}/crates/low/out/rlib"
        self.assertNotIn("builds low", self.run_with("top")[1])
        written(f"{lower}/stamp", "of an earlier check")
        self.assertIn("builds low", self.run_with("top")[1])
        self.assertNotIn("builds low", self.run_with("low")[1])
        shutil.rmtree(lower)
        self.assertIn("builds low", self.run_with("top")[1])

    def test_no_such_edits(self):
        status, _, errors = self.run_with("nothing")
        self.assertEqual((status, errors), (1, "edits.py: no edits have these names\n"))


if __name__ == "__main__":
    unittest.main()
