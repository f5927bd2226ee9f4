"""Tests of the spelling of 16-bit forms against binutils: `tools/unit_tests.py tools/suygapid/passes`. What objdump says of a form is
what it says of the instruction in 32 bits."""
import re
import subprocess
import unittest

from suygapid.passes.instructions import Op
from suygapid.passes.spelling import plain, short
from testing import Folder, needs

AS, OBJDUMP = "riscv64-unknown-elf-as", "riscv64-unknown-elf-objdump"
REGISTERS = ("zero", "ra", "sp", "t0", "s0", "a0", "a5", "s2")
NUMBERS = (-2048, -512, -33, -32, -16, -1, 0, 1, 4, 16, 31, 32, 496, 1020, 1024, 2047)


def all_ops():
    """Instructions of each kind that has a 16-bit form, with numbers at the ends of what the forms hold."""
    yield from (Op(word, (), None) for word in ("nop", "ebreak"))
    for one in REGISTERS:
        yield from (Op("li", (one, str(value)), None) for value in NUMBERS)
        yield from (Op("lui", (one, str(value)), None) for value in (0, 1, 31, 32, 0xfffdf, 0xfffe0, 0xfffff))
        yield from (Op(word, (one, f"{value}(sp)"), None) for word in ("lw", "sw") for value in (-4, 0, 2, 4, 252, 256))
        for two in REGISTERS:
            yield Op("mv", (one, two), None)
            yield from (Op(word, (one, two, str(value)), None) for word in ("addi", "andi") for value in NUMBERS)
            yield from (Op(word, (one, two, str(value)), None) for word in ("slli", "srli", "srai") for value in (0, 1, 31))
            yield from (Op(word, (one, two, three), None) for word in ("add", "sub", "xor", "or", "and") for three in REGISTERS)


@needs(AS, OBJDUMP)
class Spelling(Folder):
    def disassembled(self, lines):
        """The bytes and the words of each instruction of a text."""
        output = self.path("x.o")
        text = "\n".join(lines) + "\n"
        subprocess.run([AS, "-march=rv32imc", "-mabi=ilp32", "-o", output, "-"], input=text.encode(), check=True)
        printed = subprocess.run([OBJDUMP, "-d", output], stdout=subprocess.PIPE, check=True).stdout.decode()
        found = re.findall(r"^ +[0-9a-f]+:\t([0-9a-f]+) +\t(\S.*)$", printed, re.MULTILINE)
        return [(len(digits) // 2, self.one_name(words)) for digits, words in found]

    @staticmethod
    def one_name(words):
        """`add` of zero is `mv` in either order."""
        parts = re.split(r"[\t,]", re.sub(r" <.*", "", words.strip()))
        return ["mv", parts[1], parts[3]] if parts[0] == "add" and parts[2:3] == ["zero"] else parts

    def test_forms(self):
        ops = [op for op in all_ops() if short(op)]
        forms = self.disassembled(["\t.option rvc", *(short(op) for op in ops)])
        wholes = self.disassembled(["\t.option norvc", *(plain(op) for op in ops)])
        self.assertGreater(len(ops), 200)
        self.assertEqual({size for size, _ in forms}, {2})
        self.assertEqual({size for size, _ in wholes}, {4})
        self.assertEqual([words for _, words in forms], [words for _, words in wholes])


if __name__ == "__main__":
    unittest.main()
