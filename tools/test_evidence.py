"""Tests of tools/evidence.py, tools/verify_evidence.py and the readers below them: a page of this checkout is right, it
shows whole definitions, and it is wrong after any edit."""
import os
import shutil
import subprocess
import sys
import unittest
from unittest import mock

import declarations
import definitions
import evidence
import kit_words
import statements
import testing
import verify_evidence

KIT = "rattle-kit-13b logic dac8208d650f15bf"
SUM = "dac8208d650f15bf"
LINKED = " target=x86_64-unknown-linux-gnu cpu=x86-64-v2"
END = f" sum={SUM} native=nat,char,string logic-built=trusted libraries-built=trusted statements=trusted"
HEAP = "axioms libc: libc::heap::rattle_alloc, libc::heap::rattle_dealloc, libc::heap::rattle_realloc (3 of the 128 declared)\n"
NONE = "axioms {}: none reached of the 22 declared\n"
AXIOMS = {
    "sfi_c": (0, NONE.format("libc") + NONE.format("os")),
    "sfi_slots": (0, NONE.format("libc") + NONE.format("os")),
    "sfi_run": (3, HEAP + NONE.format("os")),
    "sfi_tool_c": (3, HEAP + NONE.format("os")),
    "x86_trial": (3, HEAP + NONE.format("os")),
    "sfi": (41, "axioms libc: libc::a, libc::b, libc::c, ... (30 of the 128 declared)\n"
                "axioms os: os::a, os::b, os::c, ... (11 of the 22 declared)\n"),
}


def verdict_of(crate):
    """The last line of a check of a crate from nothing."""
    count, _ = AXIOMS.get(crate, (0, ""))
    return (f"logic=proved functions={11 if verify_evidence.has_functions(crate) else 0}" + f" axioms={count}" * bool(count)
            + LINKED * verify_evidence.is_linked(crate) + END)


def log_of(crates):
    """What `rt ci` prints of crates that are proved, and of the tests of each."""
    lines = []
    for it in crates:
        lines += [f"== {it}", f"fn {it}: proved", *statements.proved_lines(it, statements.STATEMENTS), *AXIOMS.get(it, (0, ""))[1].splitlines(), verdict_of(it),
                  f"rt: {it} proved", f"== {it}: its tests", f"logic=proved tests=3 functions=3{END}"]
    return "\n".join(lines) + "\n"


def signed(text):
    """A page with a right hash at its end, whatever was edited above."""
    body = text.rpartition("\n" + evidence.HASH)[0]
    return f"{body}\n{evidence.HASH}{evidence.hash_of(body.encode())}\n"


# Edits of an honest page, with a right hash: what is replaced the first time it stands there, by what, and what is said of it.
# {line} stands for the verdict of sfi_check, {rules} for that of sfi_rules, {kit} for the kit's line.
EDITS = [
    ("no functions", "verdict sfi_check logic=proved functions=11", "verdict sfi_check logic=proved functions=0", "number of functions"),
    ("functions of a crate without any", "verdict sfi_safety logic=proved functions=0", "verdict sfi_safety logic=proved functions=7",
     "number of functions"),
    ("axioms of a library", "verdict sfi_rules logic=proved functions=11", "verdict sfi_rules logic=proved functions=11 axioms=900",
     "the verdict of sfi_rules has axioms=900"),
    ("axioms of the checker", "verdict sfi_check logic=proved functions=11", "verdict sfi_check logic=proved functions=11 axioms=012",
     "the verdict of sfi_check has axioms=012"),
    ("axioms of the checker for C", "verdict sfi_c logic=proved functions=11", "verdict sfi_c logic=proved functions=11 axioms=012",
     "another value: axioms=012"),
    ("more axioms than are named", "axioms=3", "axioms=4", "rests on 4 axioms and names 3"),
    ("other axioms", "libc::heap::rattle_alloc", "libc::process::system", "rests on other axioms of libc"),
    ("axioms that aren't named", f"sfi_c {NONE.format('libc')}sfi_c {NONE.format('os')}", "", "other lines of axioms"),
    ("another logic everywhere", None, lambda it: it.replace(SUM, "deadbeefdeadbeef"), "the kit's logic isn't README.md's"),
    ("another logic of one crate", f"verdict sfi_check logic=proved functions=11 sum={SUM}",
     "verdict sfi_check logic=proved functions=11 sum=deadbeefdeadbeef", "another value: sum="),
    ("an unknown kit", "kit rattle-kit-13b ", "kit rattle-kit-99z ", "isn't one that README.md names"),
    ("a kit of one's own", "kit rattle-kit-13b logic", "kit mine logic", "isn't one that README.md names"),
    ("no kit", f"kit {KIT}\n", "", "isn't one that README.md names"),
    ("two kits", f"kit {KIT}\n", f"kit {KIT}\nkit rattle-kit-13c logic {SUM}\n", "this line isn't so here: kit rattle-kit-13c"),
    ("contracts that say nothing", "verdict sfi_check logic=proved functions=11", "verdict sfi_check logic=proved functions=11 hides=7",
     "has hides=7"),
    ("faults of the prover", "verdict sfi_check logic=proved functions=11", "verdict sfi_check logic=proved functions=11 bugs=3",
     "has bugs=3"),
    ("a word twice", "verdict sfi_check logic=proved functions=11", "verdict sfi_check logic=proved functions=11 functions=12",
     "has functions=12"),
    ("a word without a value", "verdict sfi_check logic=proved", "verdict sfi_check logic=proved maybe", "sfi_check isn't proved"),
    ("another target", "target=x86_64-unknown-linux-gnu", "target=moon", "another value: target=moon"),
    ("threads of the checker for C", "verdict sfi_c logic=proved functions=11", "verdict sfi_c logic=proved functions=11 threads=free",
     "the verdict of sfi_c has threads=free"),
    ("threads that call more", "verdict sfi logic=proved functions=11", "verdict sfi logic=proved functions=11 threads=free,system",
     "another value: threads=free,system"),
    ("a target of a library", "verdict sfi_check logic=proved functions=11", "verdict sfi_check logic=proved functions=11 target=moon",
     "has target=moon"),
    ("not from nothing", "statements=trusted\n", "statements=trusted incremental=trusted\n", "has incremental=trusted"),
    ("a cache", "statements=trusted\n", "statements=trusted cache=trusted\n", "has cache=trusted"),
    ("a word left out", " logic-built=trusted", "", "has no logic-built"),
    ("a function that isn't proved", "sfi_check fn sfi_check::stream::check_stream: proved\n", "",
     "lacks this line: sfi_check fn sfi_check::stream::check_stream"),
    ("not proved", "verdict sfi_check logic=proved", "verdict sfi_check logic=not-proved", "sfi_check isn't proved"),
    ("a second verdict", "crate sfi_rewrite ", "verdict sfi_check logic=failed\ncrate sfi_rewrite ", "sfi_check has 2 verdicts"),
    ("a verdict of no crate", "crate sfi_rewrite ", f"verdict mine logic=proved functions=1{END}\ncrate sfi_rewrite ",
     "this line isn't so here: verdict mine"),
    ("the same verdict twice", f"{verdict_of('sfi_check')}\n", f"{verdict_of('sfi_check')}\nverdict sfi_check {verdict_of('sfi_check')}\n",
     "verdicts: one is wanted"),
    ("no verdict", f"verdict sfi_check {verdict_of('sfi_check')}\n", "", "sfi_check has 0 verdicts"),
    ("no built libraries", None, lambda it: "\n".join(one for one in it.split("\n") if not one.startswith("built ")), "lacks this line: built"),
    ("another version", evidence.title(), evidence.WHOLE.title + "9.9.9", "isn't so here: # Evidence"),
    ("a line of its own", "crate sfi_rewrite ", "all is well\ncrate sfi_rewrite ", "this line isn't so here: all is well"),
    ("a line elsewhere", f"verdict rv_word {verdict_of('rv_word')}\n", "", "the page lacks this line: verdict rv_word"),
    ("a crate's hash", "crate sfi_check definitions=", "crate sfi_check definitions=0", "this line isn't so here: crate sfi_check"),
    ("an edited definition", "InGuard p a\n", "InCode p a\n", "a contract or a definition is another one"),
    ("an equation left out", "expansion (CSwsp t i) = Store Sw 2 t i\n", "", "a contract or a definition is another one"),
    ("a hash of a file", "specs/Table.antt sha256=", "specs/Table.antt sha256=0", "a contract or a definition is another one"),
    ("an edited contract", "ensures judged", "ensures", "a contract or a definition is another one"),
    ("an edited word of the toolchain", "slice_index xs i = get_or xs i 0", "slice_index xs i = 0", "a word of the toolchain is another one"),
]
# Edits of a page of safety alone.
EDITS_OF_SAFETY = [
    ("an access elsewhere", "InData p a ⊎ InGuard p a\n", "InData p a ⊎ InCode p a\n", "a contract or a definition is another one"),
    ("what the page says of the contract", "makes this no weaker", "makes this weaker", "a contract or a definition is another one"),
    ("a clause", "ensures safe { IfOk result (λ ps. AllRunSafely ps) }", "ensures safe { IfOk result (λ ps. Unit {0}) }",
     "a contract or a definition is another one"),
    ("a function that isn't proved", "sfi_check fn sfi_check::verdict::check: proved\n", "", "lacks this line: sfi_check fn sfi_check::verdict::check"),
    ("another function's proof", "sfi_check fn sfi_check::verdict::check: proved\n",
     "sfi_check fn sfi_check::stream::check_stream: proved\nsfi_check fn sfi_check::verdict::check: proved\n", "this line isn't so here"),
    ("as a page of all", evidence.SAFETY.title, evidence.WHOLE.title, "a contract or a definition is another one"),
    ("not proved", "verdict sfi_check logic=proved", "verdict sfi_check logic=not-proved", "sfi_check isn't proved"),
    ("an edited word of the toolchain", "slice_index xs i = get_or xs i 0", "slice_index xs i = 0", "a word of the toolchain is another one"),
]
# The files of definitions that docs/THEOREM.md lists for an auditor of safety.
FILES_OF_SAFETY = {
    "sfi_safe_runs": ["Safety", "Runs"], "sfi_safety": ["Clean"], "sfi_image": ["Parts", "Spelling"], "sfi_formats": ["Limits", "Formats"],
    "rv_step": ["State", "Step"], "rv_mem": ["Bytes"], "rv_word": ["Spelling"], "rv_comp": ["Fronts", "Table"],
}


class Pages(unittest.TestCase):
    """Pages of logs that say that all is proved, as they are and after edits."""

    @classmethod
    def setUpClass(cls):
        cls.crates = definitions.crate_names()
        cls.page = evidence.page(log_of(cls.crates), KIT)
        cls.safety = evidence.page(log_of(cls.crates), KIT, evidence.SAFETY)
        cls.told = {len(it.stated): statements.told(it.stated) for it in (evidence.WHOLE, evidence.SAFETY)}
        cls.lines = {it: evidence.crate_line(it) for it in cls.crates}
        cls.kit_sections = {len(it.kit_words): evidence.kit_section(it.kit_words) for it in cls.told.values()}
        cls.kit = evidence.kit()

    def faults(self, page):
        """What is wrong with a page of this checkout, which is read once."""
        with mock.patch.object(statements, "told", lambda stated: self.told[len(stated)]), \
                mock.patch.object(evidence, "crate_line", self.lines.__getitem__), \
                mock.patch.object(evidence, "kit_section", lambda cited: self.kit_sections[len(cited)]), \
                mock.patch.object(evidence, "kit", return_value=self.kit):
            return verify_evidence.judged(page)[0]

    def test_a_page_of_this_checkout(self):
        self.assertEqual(verify_evidence.judged(self.page)[0], [])
        for said in ("ensures safe { IfOk result", "record RunsSafelyAs ", "record IsSafeStepAs ", "pub enum Instr {", "axioms libc: none reached",
                     "### crates/rv_step/specs/Step.antt sha256=", "pub fn check_stream<", "extern \"C\" fn sfi_c_check(", "    pub fn set_registers(",
                     "ghost invariant = { λ w. IsSafeWorld", "record IsWorldStep ", "pub ◌⟦◌∶◌⟧ :"):
            self.assertIn(said, self.page)

    def test_a_page_of_safety_alone(self):
        self.assertEqual(verify_evidence.judged(self.safety)[0], [])
        whole, alone = (self.told[len(it.stated)].text for it in (evidence.WHOLE, evidence.SAFETY))
        self.assertTrue(whole.startswith(alone))
        files = {f"### crates/{crate}/specs/{it}.antt" for crate, names in FILES_OF_SAFETY.items() for it in names}
        self.assertEqual({it.split(" sha256=")[0] for it in self.safety.splitlines() if ".antt sha256=" in it and it.startswith("### crates/")}, files)
        for said in ("ensures safe { IfOk result", "pub record IsAccepted ", "pub record IsImage ", "record RunsSafelyAs ", "record IsSafeStepAs ",
                     "pub struct Accepted<'a> {", "ghost Value = { List Part };", "pub enum Instr {", "expansion (CSwsp t i) = "):
            self.assertIn(said, self.safety)

    @unittest.skipUnless(kit_words.folder(), "the command rt isn't there")
    def test_words_of_the_toolchain(self):
        for said in ("slice_index xs i = get_or xs i 0", "pub record FinMap ", "Contains xs x = (k : ℕ)", "true && b = b"):
            self.assertIn(said, self.page)
        for said in ("slice_index xs i = get_or xs i 0", "pub record FinMap ", "IfOk r P = MatchResult r P", "So the hash of each file\nstands here"):
            self.assertIn(said, self.safety)

    def try_edits(self, page, edits):
        for name, old, new, why in edits:
            if old and "slice_index" in old and not kit_words.folder():
                continue
            with self.subTest(name):
                edited = signed(new(page) if old is None else page.replace(old, new, 1))
                self.assertNotEqual(edited, page)
                found = self.faults(edited)
                self.assertTrue(any(why in it for it in found), found)

    def test_edits(self):
        self.try_edits(self.page, EDITS)

    def test_edits_of_safety_alone(self):
        self.try_edits(self.safety, EDITS_OF_SAFETY)

    def test_a_program_whose_verdict_names_threads(self):
        edited = signed(self.page.replace("verdict sfi logic=proved functions=11", "verdict sfi logic=proved functions=11 threads=_exit,free,pthread_attr_init,syscall"))
        self.assertNotEqual(edited, self.page)
        self.assertEqual(self.faults(edited), [])

    def test_the_hash(self):
        body, _, told = self.page.rpartition("\n" + evidence.HASH)
        for edited in (self.page.replace("crate sfi_check", "crate sfi_Check", 1), body, f"{self.page}more\n", f"{body}\n{evidence.HASH}{told.upper()}", ""):
            self.assertIn("the page's hash isn't that of its text", self.faults(edited))

    def test_verdicts_that_were_invented_for_some_crates(self):
        page = evidence.page(log_of(self.crates[1:]), KIT)
        self.assertTrue(any(f"{self.crates[0]} isn't proved" in it for it in self.faults(page)))

    def test_a_program_that_is_compiled_after_its_check(self):
        log = log_of(self.crates).replace(verdict_of("sfi"), f"{verdict_of('sfi')}\n{verdict_of('sfi')} crate-checked=trusted")
        self.assertEqual(evidence.page(log, KIT), self.page)

    def test_a_log_with_two_verdicts(self):
        page = evidence.page(log_of(self.crates) + "== sfi_check\nlogic=not-proved\n", KIT)
        self.assertIn("sfi_check has 2 verdicts: one is wanted", self.faults(page))


# Files of definitions that aren't read: a name, the text, and the line and the reason.
UNREADABLE = [
    ("a line of no declaration", "-- words\n  pub never : ⊥\n", "2: a line of no declaration"),
    ("a line below an import", "use Rattle.c.specs.B.{far}\n  pub never : ⊥\n", "2: a line of no declaration"),
    ("a private declaration", "pub near : ℕ\nnear = 1\nfar : ℕ\n", "3: neither"),
    ("an equation elsewhere", "pub near : ℕ\npub far : ℕ\nnear = 1\n", "3: neither"),
    ("an import over lines", "use Rattle.c.specs.B.{\n  far}\n", "1: an import"),
    ("a declaration beside an import", "use Rattle.c.specs.B.{far} pub near : ℕ\n", "1: an import"),
    ("a comment in braces", "pub near : ℕ {-\nnear = 1\n-}\nnear = 2\n", "1: a comment in braces"),
    ("a character that isn't seen", "pub near : ℕ\nnear = 1\u202e\n", "2: the character U.202E"),
    ("a letter of another alphabet", "pub near : ℕ\nne\u0430r = 1\n", "2: the character U.0430"),
    ("another end of a line", "pub near : ℕ\nnear = 1\r  + 1\n", "2: the character U.000D"),
    ("a tab", "pub near : ℕ\nnear =\t1\n", "2: the character U.0009"),
    ("a module by another's name", "pub use Rattle.c.specs.Weak as Strong\n", "1: an import"),
    ("dashes that begin no comment", "pub near : ℕ\n--near = 1\n", "2: neither"),
    ("two of a name", "pub near : ℕ\npub near : ℕ\n", " near is declared twice"),
]
# Texts of a declaration `near` that are printed as they stand, whatever is between their lines.
WHOLE = [
    ("a field after a blank line", "pub record near : Type 0 where\n  pub one : ℕ\n\n  pub never : ⊥"),
    ("a field after a comment", "pub record near : Type 0 where\n  pub one : ℕ\n-- nothing more\n  pub never : ⊥"),
    ("an equation after a comment", "pub near : ℕ → ℕ\nnear 0 = 1\n-- more\n\nnear n = 2"),
    ("a bracket", "near : ℕ".replace("near", "pub near") + "\nnear = record {\n  one = 1\n}"),
    ("an operator", "abbrev pub ◌⟦◌∶◌⟧ : ℕ → ℕ → ℕ → ℕ\nf ⟦ high ∶ low ⟧ = f"),
    ("dashes in a text", 'pub near : List ℕ\nnear = codes " --" ++ far'),
]


class Reading(unittest.TestCase):
    def test_what_is_refused(self):
        for name, text, why in UNREADABLE:
            with self.subTest(name), self.assertRaisesRegex(declarations.Unreadable, f"A.antt:{why}"):
                declarations.read(text, "A.antt")

    def test_what_is_whole(self):
        for name, text in WHOLE:
            with self.subTest(name):
                found = declarations.read(f"-- a file\nuse Rattle.c.specs.B.{{far}}\n\n-- it\n{text}\n\n-- ---- others\n\n-- far\npub far : ℕ\n", "A.antt")
                self.assertEqual([it.text for it in found.declarations], [f"-- it\n{text}", "-- far\npub far : ℕ"])
        self.assertIn("far", "".join(found.declarations[0].code))

    def test_each_line_of_a_file_is_read(self):
        """What is printed of a file, its imports and its comments are all of it."""
        for path in sorted(definitions.CRATES.glob("*/specs/**/*.antt")):
            text = path.read_text(encoding="utf-8")
            whole = declarations.read(text, path)
            printed = "\n".join([*whole.imports, *(it.text for it in whole.declarations)]).split("\n")
            left = [it for it in text.split("\n") if it.strip() and not it.startswith("--") and it not in printed]
            self.assertEqual(left, [], path)
            count = sum(1 for it in text.split("\n") if it.strip() and not it.startswith("--"))
            self.assertEqual(count, sum(1 for it in printed if it.strip() and not it.startswith("--")), path)

    def test_contracts_and_items(self):
        text = "/// Adds.\n#[inline]\npub fn f(n: u8) -> u8\n    ensures { result ≡ n }\n\n    // more\n    ensures { n ≤ 8 }\n{\n    n\n}\n"
        self.assertEqual(declarations.contract(text, "f", "a.rt"), text[:text.index("\n{\n")])
        method = "".join(f"    {it}\n" if it else "\n" for it in text.split("\n")[:-1])
        self.assertEqual(declarations.contract(f"impl One {{\n{method}}}\n", "f", "a.rt"), f"impl One {{\n{method[:method.index(chr(10) + '    {')]}")
        with self.assertRaises(declarations.Unreadable):
            declarations.contract(f"mod one {{\n{method}}}\n", "f", "a.rt")
        item = "/// One.\npub struct One { // a; b;\n    // a; b;\n    one: u8,\n\n    two: [u8; 3],\n}"
        self.assertEqual(declarations.whole_item(f"{item}\npub struct Two;\n", r"pub struct One\b", "One", "a.rt"), item)
        self.assertEqual(declarations.whole_item(f"{item}\npub struct Two;\n", r"pub struct Two\b", "Two", "a.rt"), "pub struct Two;")
        for bad in (text + text, text.replace("    // more", "/* more"), text.replace("    // more", "more"), text.replace("≤ 8 }", "≤ 8")):
            with self.assertRaises(declarations.Unreadable):
                declarations.contract(bad, "f", "a.rt")


# Edits of definitions, by file, that the page has to show: what is replaced by what, and what the page has then.
PLANTED = [
    ("a field after a blank line", "sfi_safe_runs/specs/Runs.antt", "  pub bytes : KeepsBytesAs t p before.memory after.memory\n\n-- a turn:",
     "  pub bytes : KeepsBytesAs t p before.memory after.memory\n\n  pub memory : after.memory ≡ before.memory\n\n-- a turn:",
     "after.memory\n\n  pub memory : after.memory ≡ before.memory\n"),
    ("a field after a heading", "sfi_safe_runs/specs/Runs.antt", "\n-- ---- turns\n", "\n-- ---- turns\n  pub never : ⊥\n",
     "  pub guards : HasGuards t.zones p s.memory\n\n-- ---- turns\n  pub never : ⊥\n"),
    ("c.swsp as a nop", "rv_comp/specs/Table.antt", "expansion (CSwsp t i) = Store Sw 2 t i", "expansion (CSwsp t i) = OpImm Addi 0 0 i",
     "expansion (CSwsp t i) = OpImm Addi 0 0 i"),
    ("an equation after a comment", "rv_comp/specs/Table.antt", "expansion (CLui d i) = Lui d", "expansion (CLui d i) = Auipc d",
     "expansion (CLui d i) = Auipc d"),
    ("an operator", "rv_comp/specs/Table.antt", "piece f (high + 1 - low) low", "piece f 0 low", "piece f 0 low"),
    ("a word by another's name", "sfi_safe_runs/specs/Safety.antt", "use Rattle.sfi_safe_runs.specs.Runs.{",
     "use Rattle.sfi_safe_runs.specs.Laws.{SafeTurns as InCode}\nuse Rattle.sfi_safe_runs.specs.Runs.{",
     "use Rattle.sfi_safe_runs.specs.Laws.{SafeTurns as InCode}\n"),
    ("a name with a dash", "sfi_safe_runs/specs/Runs.antt",
     "-- this turn may come at this state\nabbrev pub IsTurnAs : Setting → Part → State → Turn → Type 0\nIsTurnAs t p s (Steps r) = IsStepAs t.calls p s r\n",
     "abbrev pub is-so : State → Stepped → Type 0\nis-so s r = ⊥\n\nabbrev pub IsTurnAs : Setting → Part → State → Turn → Type 0\nIsTurnAs t p s (Steps r) = is-so s r\n",
     "is-so s r = ⊥\n"),
    ("a type of another name in code", "sfi_check/src/stream.rt", "use crate::stream_answer::StreamAnswer;\n",
     "use crate::stream_answer::StreamAnswer;\nuse sfi_image::Anything as Something;\n", "use sfi_image::Anything as Something;\n"),
    ("a field of a type in code", "sfi_image/src/span.rt", "    pub size: u64,\n", "    pub size: u64,\n\n    // more\n    pub more: u32,\n",
     "    // more\n    pub more: u32,\n}"),
    ("a clause of a contract", "sfi_check/src/stream.rt", "    ensures judged { (bytes : List ℕ) × (ends : Bool)\n        × Streams",
     "    requires { ⊥ }\n    ensures judged { (bytes : List ℕ) × (ends : Bool)\n        × Streams", "    requires { ⊥ }\n    ensures judged"),
]


class Planted(testing.Folder):
    """Definitions that are edited in a copy of the crates."""

    def setUp(self):
        super().setUp()
        for crate in definitions.crate_names():
            for part in ("src", "specs"):
                if (testing.TOP / "crates" / crate / part).is_dir():
                    shutil.copytree(testing.TOP / "crates" / crate / part, self.room / "crates" / crate / part)
        shutil.copy(testing.TOP / "crates.txt", self.room)

    def edit(self, file, old, new):
        path = self.room / "crates" / file
        text = path.read_text(encoding="utf-8")
        self.assertEqual(text.count(old), 1, old)
        path.write_text(text.replace(old, new), encoding="utf-8")

    def told(self):
        """What the page states of the copy."""
        with mock.patch.object(definitions, "TOP", self.room), mock.patch.object(definitions, "CRATES", self.room / "crates"), \
                mock.patch.object(statements, "TOP", self.room):
            return statements.told(statements.STATEMENTS).text

    def test_planted(self):
        for _, *row, _ in PLANTED:
            self.edit(*row)
        found = self.told()
        for name, *_, said in PLANTED:
            with self.subTest(name):
                self.assertIn(said, found)

    def test_a_line_that_is_not_read(self):
        self.edit("rv_comp/specs/Table.antt", "expansion (CSwsp t i) = Store Sw 2 t i", "-expansion (CSwsp t i) = Store Sw 2 t i")
        with self.assertRaisesRegex(declarations.Unreadable, "^crates/rv_comp/specs/Table.antt:248: neither"):
            self.told()

    def test_words_that_are_declared_elsewhere(self):
        for file, old in (("sfi_safety/specs/Clean.antt", "use Rattle.sfi_image.specs.Parts.{IsImage, IsRightLayout}"),
                          ("sfi_host/src/world.rt", "ghost use Rattle.sfi_host.specs.Changing.{with_stop}")):
            path = self.room / "crates" / file
            text = path.read_text(encoding="utf-8")
            for new, why in ((old.replace(".specs.", ".proofs."), "is imported from no definitions"),
                             (f"{old.partition('.{')[0].replace('.specs.', '.proofs.')} as {'IsAccepted' if 'safety' in file else 'with_stop'}"
                              + ";" * old.startswith("ghost"), "is imported from no definitions"),
                             (old.replace(".specs.", ".specs.private."), "is cited, and declared nowhere")):
                with self.subTest(file, why=why):
                    self.edit(file, old, new)
                    with self.assertRaisesRegex(declarations.Unreadable, why):
                        self.told()
                    path.write_text(text, encoding="utf-8")


class Commands(testing.Folder):
    """The commands as they are called."""

    def call(self, *words, path=None):
        env = {**os.environ, "PATH": path or os.environ["PATH"]}
        return subprocess.run([sys.executable, *words], capture_output=True, text=True, check=False, env=env)

    def test_what_is_missing_is_told_in_a_line(self):
        half = self.write("half", log_of(definitions.crate_names()[1:]))
        whole = self.write("whole", log_of(definitions.crate_names()))
        first = definitions.crate_names()[0]
        usage = "usage: ./sfi evidence [--safety] LOG > FILE: "
        rows = [([], None, usage), (["--safety"], None, usage), ([whole, "--safety"], None, usage), ([self.path("none")], None, "there is no file"),
                ([half], None, f"no verdict on {first}: "), (["--safety", half], None, f"no verdict on {first}: "), ([whole], self.folder, "no command rt")]
        for words, path, said in rows:
            if not kit_words.folder() and half in words:
                continue
            with self.subTest(said):
                done = self.call(testing.TOP / "sfi", "evidence", *words) if path is None else self.call(evidence.__file__, *words, path=path)
                self.assertEqual((done.returncode, done.stdout, done.stderr.count("\n")), (1, "", 1), done.stderr)
                self.assertIn(said, done.stderr)
                self.assertEqual("rt ci --anew" in done.stderr, path is None)
        done = self.call(verify_evidence.__file__, self.path("none"))
        self.assertEqual((done.returncode, done.stdout, done.stderr.count("\n")), (1, "", 1))

    def test_help_says_what_is_not_seen(self):
        for tool in (evidence, verify_evidence):
            done = self.call(tool.__file__, "--help")
            self.assertEqual(done.returncode, 0)
            self.assertIn("is the word of whoever ma", " ".join(done.stdout.split()).replace("it is the word", "is the word"))

    def test_an_edited_definition(self):
        for part in ("crates", "tools", "bindings/python"):
            shutil.copytree(testing.TOP / part, self.room / part, ignore=shutil.ignore_patterns("out", "must-fail", "target"))
        for name in ("crates.txt", "README.md", "CHANGELOG.md"):
            shutil.copy(testing.TOP / name, self.room)
        page = self.write("page", evidence.page(log_of(definitions.crate_names()), KIT))
        for crate, name, old, new in (("rv_step", "Step", "Call", "Next"), ("sfi_host", "Worlds", "Exited", "Ready")):
            path = self.room / "crates" / crate / "specs" / f"{name}.antt"
            text = path.read_text(encoding="utf-8")
            self.assertIn(old, text)
            path.write_text(text.replace(old, new), encoding="utf-8")
            done = self.call(self.path("tools/verify_evidence.py"), page)
            self.assertEqual((done.returncode, f"no: this line isn't so here: crate {crate} " in done.stdout), (1, True), done.stdout + done.stderr)
            path.write_text(text, encoding="utf-8")
        path.write_text(f"{text}more\n", encoding="utf-8")
        why = f"crates/sfi_host/specs/Worlds.antt:{text.count(chr(10)) + 1}: neither"
        for tool, words, at in (("verify_evidence", [page], "no: this checkout isn't read: "), ("definitions", [], "")):
            done = self.call(self.path(f"tools/{tool}.py"), *words)
            self.assertEqual((done.returncode, (done.stdout + done.stderr).startswith(f"{at}{why}")), (1, True), done.stdout + done.stderr)


if __name__ == "__main__":
    unittest.main()
