"""Tests of reading assembly: `tools/unit_tests.py tools/suygapid/passes`. The assembly is what gcc 12 and clang 14 write."""
import unittest

from suygapid.passes.assembly import Label, Refused, SourceLine, Statement, read_assembly
from suygapid.passes.instructions import Converter
from suygapid.passes.pcrel import pcrel_labels
from suygapid.passes.trampolines import check_trampolines


def converted(line):
    """One line of assembly, as the passes take it."""
    statement = next(read_assembly("a.s", line))
    return [f"{op.word} {', '.join(map(str, op.operands))}".strip() for op in Converter().convert(statement)]


class Reading(unittest.TestCase):
    def test_pieces(self):
        pieces = list(read_assembly("a.s", 'a: b:\tlw\ta0, 4(sp) # x\n\n.ascii "#;,\\"", "b"; ret'))
        self.assertEqual(pieces, [
            Label("a", SourceLine("a.s", 1)), Label("b", SourceLine("a.s", 1)),
            Statement("lw", ("a0", "4(sp)"), SourceLine("a.s", 1)),
            Statement(".ascii", ('"#;,\\""', '"b"'), SourceLine("a.s", 3)), Statement("ret", (), SourceLine("a.s", 3))])

    def test_lines_of_the_source(self):
        """By gcc's markers around inline assembly, where they say so."""
        pieces = read_assembly("a.s", 'nop\n#APP\n# 7 "dir/b.c" 1\n\tnop\n\tnop\n# 0 "" 2\n#NO_APP\n\tnop # 9 "c"\n\tnop')
        self.assertEqual([str(piece.place) for piece in pieces], ["a.s:1", "b.c:7", "b.c:8", "a.s:8", "a.s:9"])

    def test_labels_that_are_numbers(self):
        pieces = list(read_assembly("a.s", "1:\nbeqz a0, 1f\nj 1b\n1:\nj 1b"))
        names = [piece.name if isinstance(piece, Label) else piece.operands[-1] for piece in pieces]
        self.assertEqual(names, [".N1.1", ".N1.2", ".N1.1", ".N1.2", ".N1.2"])

    def test_parts_by_auipc(self):
        pieces = list(read_assembly("a.s", ".L0: .L1:\tauipc a0,%pcrel_hi(x)\n\tlw a0,%pcrel_lo(.L0)(a0)"))
        labels = pcrel_labels(pieces)
        self.assertEqual({name: symbol.name for name, symbol in labels.items()}, {".L0": "x", ".L1": "x"})
        converter = Converter(labels)
        found = [str(op.operands[-1]) for piece in pieces[2:] for op in converter.convert(piece)]
        self.assertEqual(found, ["x", "0(a0)"])


class Instructions(unittest.TestCase):
    def test_rows(self):
        rows = [
            ("add a0,a1,a2", ["add a0, a1, a2"]),
            ("add a0,a1,-4", ["addi a0, a1, -4"]),
            ("addi x10,x11,0x7ff", ["addi a0, a1, 2047"]),
            ("sll a0,a0,3", ["slli a0, a0, 3"]),
            ("sltu a0,a0,1", ["sltiu a0, a0, 1"]),
            ("remu t3,s0,fp", ["remu t3, s0, s0"]),
            ("lw a5,%lo(x)(a4)", ["lw a5, 0(a4)"]),
            ("lbu a5,(a4)", ["lbu a5, 0(a4)"]),
            ("sw zero,12(sp)", ["sw zero, 12(sp)"]),
            ("lw a5,x", ["la a5, x", "lw a5, 0(a5)"]),
            ("lhu a5,x+6", ["la a5, x+6", "lhu a5, 0(a5)"]),
            ("lw sp,-20(s0)", ["mv sp, s0", "lw sp, -20(sp)"]),
            ("lw sp,4(sp)", ["lw sp, 4(sp)"]),
            ("sb a5,x,t0", ["la t0, x", "sb a5, 0(t0)"]),
            ("lla a5,x-8", ["la a5, x-8"]),
            ("lui a5,%hi(x)", ["la a5, x"]),
            ("lui a5,%hi(x+12)", ["la a5, x"]),
            ("addi a5,a5,%lo(x+12)", ["addi a5, a5, 12"]),
            ("addi a5,a5,%lo(x)", []),
            ("addi a5,a4,%lo(x)", ["mv a5, a4"]),
            ("lui a5,%hi(x+2052)", ["la a5, x+2048"]),
            ("lw a5,%lo(x+2052)(a5)", ["lw a5, 4(a5)"]),
            ("lui a5,%hi(x-4)", ["la a5, x-2048"]),
            ("sw a5,%lo(x-4)(a4)", ["sw a5, 2044(a4)"]),
            ("lui a5,1048575", ["lui a5, 1048575"]),
            ("li a5,-2147483648", ["li a5, -2147483648"]),
            ("mv a0,a1", ["mv a0, a1"]),
            ("not a0,a1", ["xori a0, a1, -1"]),
            ("neg a0,a1", ["sub a0, zero, a1"]),
            ("seqz a0,a1", ["sltiu a0, a1, 1"]),
            ("snez a0,a1", ["sltu a0, zero, a1"]),
            ("sltz a0,a1", ["slt a0, a1, zero"]),
            ("sgtz a0,a1", ["slt a0, zero, a1"]),
            ("sgtu a0,a1,a2", ["sltu a0, a2, a1"]),
            ("sext.b a0,a1", ["slli a0, a1, 24", "srai a0, a0, 24"]),
            ("zext.h a0,a1", ["slli a0, a1, 16", "srli a0, a0, 16"]),
            ("zext.b a0,a1", ["andi a0, a1, 255"]),
            ("beq a0,a1,.L3", ["beq a0, a1, .L3"]),
            ("ble a0,a1,.L3", ["bge a1, a0, .L3"]),
            ("bgtu a0,a1,.L3", ["bltu a1, a0, .L3"]),
            ("bltz a0,.L3", ["blt a0, zero, .L3"]),
            ("blez a0,.L3", ["bge zero, a0, .L3"]),
            ("bnez a0,.L3", ["bnez a0, .L3"]),
            ("j .L3", ["j .L3"]),
            ("jal f", ["call f"]),
            ("jal t0,f", ["jal t0, f"]),
            ("call f@plt", ["call f"]),
            ("call t0,__riscv_save_0", ["jal t0, __riscv_save_0"]),
            ("tail f", ["j f"]),
            ("jump .L3,ra", ["j .L3"]),
            ("jr a5", ["jr a5"]),
            ("jr ra", ["ret"]),
            ("jalr a5", ["jalr ra, 0(a5)"]),
            ("jalr ra,a5", ["jalr ra, 0(a5)"]),
            ("jalr ra,8(a5)", ["jalr ra, 8(a5)"]),
            ("jalr zero,a5,4", ["jalr zero, 4(a5)"]),
            ("ret", ["ret"]),
            ("unimp", ["ebreak"]),
            ("fence rw,rw", ["fence"]),
            ("nop", ["nop"]),
        ]
        for line, wanted in rows:
            self.assertEqual(converted(line), wanted, line)

    def test_refusals(self):
        rows = [
            ("add s8,a0,a0", "s8 is the sandbox's own register: compile with -ffixed-x24"),
            ("mv a0,t6", "t6 is the sandbox's own register: compile with -ffixed-x31"),
            ("fadd.s fa0,fa0,fa1", "fadd.s: there is no floating point"),
            ("csrr a0,mstatus", "csrr: the sandbox has no control registers"),
            ("rdcycle a0", "rdcycle: the sandbox has no counters"),
            ("ecall", "ecall: a sandbox calls its host through gates alone"),
            ("amoadd.w a0,a1,(a2)", "amoadd.w: there are no atomic instructions"),
            ("fence.i", "fence.i: code can't change"),
            ("ld a0,0(a1)", "ld: it is no instruction of RV32IM"),
            ("addi a0,a0,2048", "2048 is outside -2048 to 2047"),
            ("slli a0,a0,32", "32 is outside 0 to 31"),
            ("add a0,a0", "add has 3 operands"),
            ("not a0", "not has 2 operands"),
            ("lw a0,4(fa0)", "'fa0' is no register of RV32I"),
            ("j .L3+4", "a jump to .L3+4, which is no label"),
            ("addi a5,a5,%pcrel_lo(.L0)", ".L0 is no label of an auipc"),
            ("lui %hi(x)", "%hi(x) alone in lui"),
            ("jalr", "jalr has 2 operands"),
            ("li a5,%hi(x)", "%hi(x) in li"),
            ("ori a5,a5,%lo(x)", "%lo(x) in ori"),
            ("addi a5,a5,%tprel_lo(x)", "'%tprel_lo(x)' is no number"),
            ("la a0,a-b", "'a-b' is no symbol plus a number"),
        ]
        for line, wanted in rows:
            with self.assertRaises(Refused) as caught:
                converted(line)
            self.assertEqual(str(caught.exception), f"a.s:1: {wanted}", line)


class CodeOnTheStack(unittest.TestCase):
    def test_each_word_counts(self):
        """The four words of gcc's code that calls a nested function: `lui t2, 0`, `lui t0, 0`, `addi t2, t2, 0` and
        `jr t0`, as two that are or-ed to the upper part of an address, and two in parts."""
        class Section:
            def __init__(self, lines):
                self.ops = [op for line in lines for piece in read_assembly("a.s", line) for op in Converter().convert(piece)]

        lines = ["ori a4,a4,951", "ori a3,a3,695", "li a5,229376", "addi a5,a5,915", "li a2,163840"]
        self.assertRaises(Refused, check_trampolines, [Section(lines)])
        for line in lines[:1] + lines[4:]:
            check_trampolines([Section([other for other in lines if other != line])])
