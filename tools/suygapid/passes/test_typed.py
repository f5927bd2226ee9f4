"""Tests of code in words: `tools/unit_tests.py tools/suygapid/passes`. What is wanted follows from docs/SOURCE.md, and from which
numbers a pointer may be."""
import unittest

from suygapid.passes.assembly import Refused
from suygapid.passes.margins import Margins, margins
from suygapid.passes.naming import Names
from suygapid.passes.placement import far_branches, places, spans, with_near_branches
from suygapid.passes.test_passes import code, lines
from suygapid.passes.typed import WORDS, check_registers, free_addresses, largest_step, with_plain_jumps
from suygapid.passes.word_places import part_sizes


class Places(unittest.TestCase):
    def test_sizes(self):
        masked = (4, 4, 4)
        rows = [
            ("add a0,zero,a1", (2,)), ("mv a0,a1", (4,)), ("li a0,4097", (2, 2)), ("li a0,2048", (2, 4)), ("lw a0,4(a1)", masked),
            ("lw a0,4(zero)", (4,)), ("lw a0,4(gp)", (4,)), ("lw a0,4(sp)", (2,)), ("lw a0,256(sp)", (4,)), ("ret", masked),
            ("jr a5", masked), ("jalr ra,0(a5)", masked), ("la a0,x", (4, 4)), ("addi sp,sp,-16", (2, 4, 4)), ("mv sp,s0", (4, 4)),
            ("addi gp,a0,0", (4, 4)), ("add gp,zero,a0", (4, 4)), ("li gp,0", (4, 4)), ("li gp,4096", (2, 4, 4)),
            ("li gp,4097", (2, 4, 4, 2, 4, 4)), ("addi gp,gp,64", masked), ("add gp,a0,a1", masked), ("lw gp,4(sp)", (2, 4, 4)),
            ("lw gp,4(a0)", (4, 4, 4, 4, 4)), ("la sp,x", (4,) * 6), ("call f", (4,)), ("beqz a0,x", (4,)), ("fence", (4,)),
        ]
        for text, wanted in rows:
            [op] = code(text)
            self.assertEqual(part_sizes(op, None), wanted, text)

    def test_steps(self):
        """A step that needs no masks stands directly before an access on its register in reach."""
        rows = [("addi sp,sp,-16; sw ra,12(sp)", (2,)), ("addi gp,gp,4; lw a0,1020(gp)", (2,)), ("addi gp,gp,4; lw a0,-1020(gp)", (2,)),
                ("addi gp,gp,2000; lbu a0,0(gp)", (4,)), ("addi gp,gp,4; lw a0,1024(gp)", (2, 4, 4)),
                ("addi gp,gp,4; lw a0,-1024(gp)", (2, 4, 4)), ("addi gp,gp,4; lw a0,0(tp)", (2, 4, 4)),
                ("addi gp,tp,4; lw a0,0(gp)", (4, 4, 4)), ("addi gp,gp,4; .a: lw a0,0(gp)", (2, 4, 4)),
                ("addi gp,gp,4; add a0,a0,gp", (2, 4, 4)), ("addi gp,gp,4; lw zero,0(gp)", (2, 4, 4)),
                ("addi gp,gp,4; sw zero,0(gp)", (2,)),
                ("li gp,4097; lw a0,0(gp)", (2, 4, 4, 2)), ("li gp,4097; lw zero,0(gp)", (2, 4, 4, 2, 4, 4))]
        for text, wanted in rows:
            self.assertEqual(part_sizes(*code(text)[:2]), wanted, text)

    def test_places(self):
        """Two 16-bit forms share a word; one alone takes 32 bits; a label begins a word."""
        self.assertEqual(spans(code("f: nop; nop; nop; lw a0,0(a1); nop; .a: li a0,4097; call f; nop; li a0,2048"), WORDS), [
            (0, 0), (0, 2), (2, 4), (4, 8), (8, 20), (20, 24), (24, 24), (24, 28), (28, 32), (32, 34), (34, 40)])
        self.assertEqual(places(code("nop; li a0,4097; nop"), WORDS), [0, 2, 6])

    def test_reach(self):
        loop = code(".top: " + "sw a0,0(a0); " * 341 + "bnez a0,.top")
        self.assertEqual(far_branches(loop, (WORDS,)), set())
        far = with_near_branches(code(".top: " + "sw a0,0(a0); " * 342 + "bnez a0,.top"), Names(), (WORDS,))
        self.assertEqual(lines(far)[-3:], ["beqz a0, over..1", "j .top", "over..1:"])


class Programs(unittest.TestCase):
    def test_own_registers(self):
        """Two more than in the other formats are the sandbox's own; nothing can mask the link of a jump."""
        for text in ("mv a0,t4", "sw t5,0(a0)", "jalr gp,0(a0)", "jal tp,f"):
            self.assertRaises(Refused, check_registers, code(text))
        check_registers(code("mv a0,t3; jalr ra,0(a0)"))

    def test_registers_of_the_program(self):
        self.assertEqual(free_addresses(code("mv tp,a0; lw a0,0(gp)")), ())

    def test_jump_to_a_sum(self):
        self.assertEqual(lines(with_plain_jumps(code("jalr ra,8(a0); jalr ra,0(a0)"))), lines(code("addi ra,a0,8; jalr ra,0(ra); jalr ra,0(a0)")))
        self.assertRaises(Refused, with_plain_jumps, code("jalr zero,8(a0)"))

    def test_room(self):
        """A pointer may lie one step beside a base that leads to an object."""
        steps = code("addi a0,a0,40; addi a0,a0,-300; addi sp,sp,-2000; addi a0,a1,100")
        self.assertEqual(largest_step(steps), 40)
        accesses = code("lw a1,100(a0); lw a1,-40(a0); sw a1,2000(sp)")
        self.assertEqual(margins(accesses, largest_step(steps)), Margins(144, 80))
        self.assertEqual(margins([]), Margins(0, 0))
