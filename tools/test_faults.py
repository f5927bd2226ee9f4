"""Tests of what the program says of faults on standard error: `tools/unit_tests.py tools test_faults.py`. Standard output has the
line that names a fault; each that docs/SOURCE.md, docs/IMAGE.md and docs/sfi.1 list has a sentence."""
import re
import subprocess
import unittest

import build_page
from testing import SFI, TOP, needs_program

SMALLEST = (TOP / "examples" / "smallest.hex").read_text(encoding="ascii")
# Words, a text, the line that names its fault, and what is said of it: columns are counted from 1, as gcc does.
ROWS = [
    ("build", ".sandbox 256\nhere:  lbx a0, 0(a1)  # no such\n", "source fault 1 Word line 2", "<stdin>:2:8: unknown word 'lbx'"),
    ("map", ".sandbox 256\nlbx\n", "source fault 1 Word line 2", "<stdin>:2:1: unknown word 'lbx'"),
    ("build", ".sandbox 256\n\tlw a0, 4096(a1)\n", "source fault 3 Number line 2",
     "<stdin>:2:2: a number, in its range, is expected: 'lw a0, 4096(a1)'"),
    ("build", ".sandbox 256\na:b: add a0, a1, 5\r\n", "source fault 2 Register line 2", "<stdin>:2:6: a register is expected: 'add a0, a1, 5'"),
    ("build", ".sandbox 256\na: nop\na: nop\n", "source fault 5 LabelTwice line 3", "<stdin>:3:1: this sandbox already has a label or gate 'a'"),
    ("build", ".sandbox 256\n.gate a 0\n.gate a 1\n", "source fault 5 LabelTwice line 3",
     "<stdin>:3:7: this sandbox already has a label or gate 'a'"),
    ("build", ".data\n", "source fault 6 Directive line 1", "<stdin>:1:1: this may not stand here, or there is no .sandbox before it: '.data'"),
    ("build", "", "source fault 6 Directive line 1", "<stdin>: this may not stand here, or there is no .sandbox before it"),
    ("build", "#include <stdio.h>\nint main(void) { return 0; }\n", "source fault 1 Word line 2",
     "<stdin>:1:1: this is no assembly: tools/sfi-cc makes an image of C"),
    ("build", ".sandbox 256\nmv s8, a0\n", "rewrite fault 1 ReservedRegister line 2",
     "<stdin>:2:1: a register that no statement may name: 'mv s8, a0'"),
    ("build", ".sandbox 256\n  beqz a0,nowhere # far\n", "link fault 1 UnknownName line 2", "<stdin>:2:11: no label or gate has the name 'nowhere'"),
    ("build", ".format 2\n.sandbox 256\n.export none\nnop\n", "names fault 1 Unknown line 3", "<stdin>:3:9: no label or gate has the name 'none'"),
    ("check", "41424344", "layout fault 1 Magic", "<stdin>: the first four bytes are of no format"),
    ("dis", "53464931", "layout fault 3 Short", "<stdin>: bytes are missing at the end"),
    ("dis", "5", "input fault hex odd", "<stdin>: a digit is missing"),
    ("dis", "53 4x", "input fault hex digit 3", "<stdin>: a character is no hexadecimal digit"),
    ("move --at 1:2", SMALLEST, "move fault 3 NoPlace", "<stdin>: the sandbox can't lie where --at says"),
    ("run --input x", SMALLEST, "option fault hex", "<stdin>: --input wants hexadecimal digits, two for each byte"),
]


class Faults(unittest.TestCase):
    def ran(self, words, text):
        done = subprocess.run([SFI, *words.split()], input=text, capture_output=True, text=True, check=False)
        return done.returncode, done.stdout, done.stderr

    @needs_program
    def test_what_is_said(self):
        for words, text, line, said in ROWS:
            with self.subTest(text, words=words):
                self.assertEqual(self.ran(words, text), (2, f"{line}\n", f"{said}\n"))

    @needs_program
    def test_nothing_is_said_of_others(self):
        for words, text, status in (("check", SMALLEST, 0), ("check", SMALLEST.replace("73001000", "73000000", 1), 1), ("check x", "", 3)):
            with self.subTest(words):
                found = self.ran(words, text)
                self.assertEqual((found[0], found[2]), (status, ""))

    def test_each_fault_has_a_sentence(self):
        documents = {it: (TOP / "docs" / it).read_text(encoding="utf-8") for it in ("SOURCE.md", "IMAGE.md", "sfi.1")}
        listed = set(re.findall(r"`(\w+) fault \d+ (\w+)", documents["SOURCE.md"]))
        listed |= {("source", it) for it in re.findall(r"`\d (\w+)`", documents["SOURCE.md"])}
        listed |= {("layout", it) for it in re.findall(r"^- \d+ (\w+): ", documents["IMAGE.md"], re.MULTILINE)}
        listed |= set(re.findall(r"^\.B \"(convert|move) fault \d (\w+)\"", documents["sfi.1"], re.MULTILINE))
        said = build_page.fault_sentences()
        self.assertGreater(len(listed), 25)
        self.assertEqual([it for it in sorted(listed) if " ".join(it) not in said], [])


if __name__ == "__main__":
    unittest.main()
