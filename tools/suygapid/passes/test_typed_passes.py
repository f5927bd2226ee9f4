"""Tests of the passes for code in words: `tools/unit_tests.py tools/suygapid/passes`. What is wanted follows from docs/SOURCE.md, and
from which numbers a pointer may be."""
import unittest

from suygapid.passes.deriving import derived
from suygapid.passes.facts import ADDRESSES
from suygapid.passes.hoisting import FAR, distances, with_hoisted_masks
from suygapid.passes.loops import loops_of
from suygapid.passes.naming import Names
from suygapid.passes.pairing import with_pairs
from suygapid.passes.raising import with_raised_steps
from suygapid.passes.repeating import without_repeated_masks
from suygapid.passes.sharing import with_shared_masks
from suygapid.passes.stepping import with_steps
from suygapid.passes.targeting import with_targets
from suygapid.passes.test_passes import code, lines
from suygapid.passes.typed import largest_step
from suygapid.passes.word_places import part_sizes


class Stepping(unittest.TestCase):
    def test_rows(self):
        rows = [
            ("addi sp,sp,-16; mv a1,a0; sw ra,12(sp)", "mv a1,a0; addi sp,sp,-16; sw ra,12(sp)"),
            ("addi sp,sp,-16; mv a1,sp; sw ra,12(sp)", None),
            ("addi sp,sp,-2000; sw ra,1996(sp)", None),
            ("lw ra,12(sp); lw s0,8(sp); addi sp,sp,16", "lw ra,12(sp); addi sp,sp,16; lw s0,-8(sp)"),
            ("lw a0,0(gp); add a1,a1,a0; addi gp,gp,4", "addi gp,gp,4; lw a0,-4(gp); add a1,a1,a0"),
            ("lw a0,0(gp); addi a1,gp,8; addi gp,gp,4", "addi gp,gp,4; lw a0,-4(gp); addi a1,gp,4"),
            ("lw a0,0(gp); mv a1,gp; addi gp,gp,4", "addi gp,gp,4; lw a0,-4(gp); addi a1,gp,-4"),
            ("lw a0,0(gp); lw a1,-1020(gp); addi gp,gp,4", "addi gp,gp,4; lw a0,-4(gp); lw a1,-1024(gp)"),
            ("lw a0,0(gp); sub a1,gp,a2; addi gp,gp,4", None),
            ("sw gp,0(gp); addi gp,gp,4", None),
            ("lw gp,0(gp); addi gp,gp,4", None),
            ("lw a0,-2048(gp); addi gp,gp,4", None),
            ("lw a0,0(a1); addi a1,a1,4", None),
            ("addi gp,gp,8; lw a0,0(gp); addi gp,gp,4", None),
            ("lw a0,0(gp); .a: addi gp,gp,4", None),
            ("lw zero,0(gp); addi gp,gp,4", None),
            ("lw a0,0(gp); lw zero,4(gp); addi gp,gp,4", "addi gp,gp,4; lw a0,-4(gp); lw zero,0(gp)"),
            ("addi gp,gp,4; mv a1,a0; lw zero,0(gp)", None),
            ("addi gp,gp,4; mv a1,a0; sw zero,0(gp)", "mv a1,a0; addi gp,gp,4; sw zero,0(gp)"),
        ]
        for text, wanted in rows:
            self.assertEqual(lines(with_steps(code(text))), lines(code(wanted or text)), text)

    def test_long_run(self):
        text = "; ".join(f"lw a0,0(gp); addi gp,gp,{number % 8}" for number in range(700))
        found = with_steps(code(text))
        self.assertEqual(len(found), 1400)
        self.assertTrue(all(len(part_sizes(op, following)) == 1 for op, following in zip(found, found[1:])))


class Raising(unittest.TestCase):
    def raised(self, text, registers=ADDRESSES):
        return lines(with_raised_steps(code(text), registers))

    def test_rows(self):
        loop = "f: mv gp,a5; .a: "
        rows = [
            ("lw a0,0(gp); beqz a0,.b; addi gp,gp,4; bnez a1,.a; .b: ret",
             "addi gp,gp,4; lw a0,-4(gp); beqz a0,.b; bnez a1,.a; .b: ret"),
            ("lw a0,0(gp); beqz a0,.b; addi a1,gp,8; lw a2,8(gp); addi gp,gp,4; bnez a1,.a; .b: ret",
             "lw a0,0(gp); beqz a0,.b; addi a1,gp,8; addi gp,gp,4; lw a2,4(gp); bnez a1,.a; .b: ret"),
            ("lw a0,0(gp); beqz a0,.b; addi gp,gp,4; j .a; .b: mv a5,gp; ret",
             "addi gp,gp,4; lw a0,-4(gp); beqz a0,.b; j .a; .b: addi a5,gp,-4; ret"),
            ("lw a0,0(gp); beqz a0,.b; addi gp,gp,4; j .a; .b: addi gp,gp,4; bnez a1,.a; ret",
             "addi gp,gp,4; lw a0,-4(gp); beqz a0,.b; j .a; .b: bnez a1,.a; ret"),
            ("bnez a0,.b; lw a0,0(gp); j .c; .b: lw a1,0(gp); .c: addi gp,gp,4; bnez a1,.a; ret",
             "bnez a0,.b; addi gp,gp,4; lw a0,-4(gp); j .c; .b: addi gp,gp,4; lw a1,-4(gp); .c: bnez a1,.a; ret"),
        ]
        for text, wanted in rows:
            self.assertEqual(lines(with_raised_steps(with_steps(code(loop + text)), ADDRESSES)), lines(code(loop + wanted)), text)

    def test_what_stays(self):
        rows = [  # another step, a way without an access, to one again, or where the register is read otherwise, or too far
            "lw a0,0(gp); beqz a0,.b; addi gp,gp,4; j .a; .b: addi gp,gp,8; bnez a1,.a; ret",
            "beqz a0,.b; lw a0,0(gp); .b: addi gp,gp,4; bnez a1,.a; ret",
            "lw a0,0(gp); .b: beqz a0,.a; addi gp,gp,4; bnez a1,.a; ret",
            "lw a0,0(gp); beq gp,a3,.b; addi gp,gp,4; bnez a1,.a; .b: ret",
            "lw a0,0(gp); beqz a0,.b; addi gp,gp,4; bnez a1,.a; .b: mv a5,gp; ret",
            "lw a0,0(gp); beqz a0,.b; addi gp,gp,1024; bnez a1,.a; .b: ret",
            "lw zero,0(gp); beqz a0,.b; addi gp,gp,4; bnez a1,.a; .b: ret",
            "lw a0,0(gp); .b: beqz a0,.c; addi gp,gp,4; bnez a1,.a; .c: ret; g: mv gp,a5; j .b",
        ]
        for text in rows:
            text = "f: mv gp,a5; .a: " + text
            self.assertEqual(self.raised(text), lines(code(text)), text)
        text = "f: mv gp,a5; .a: lw a0,0(gp); beqz a0,.b; addi gp,gp,4; bnez a1,.a; .b: ret"
        self.assertEqual(self.raised(text, ("tp",)), lines(code(text)))


class Sharing(unittest.TestCase):
    def shared(self, text, registers=ADDRESSES):
        return lines(with_shared_masks(code(text), registers))

    def test_rows(self):
        rows = [
            ("lw a0,0(a5); lw a1,4(a5)", "mv gp,a5; lw a0,0(gp); lw a1,4(gp)"),
            ("lw a0,0(a5); lw a1,4(a4)", None),
            ("lw a5,0(a5); lw a1,4(a5)", None),
            ("lw a0,0(a5); lw a5,4(a5); lw a2,8(a5)", "mv gp,a5; lw a0,0(gp); lw a5,4(gp); lw a2,8(a5)"),
            ("lw a0,0(a5); addi a5,a5,8; lw a2,-4(a5)", "mv gp,a5; lw a0,0(gp); addi a5,a5,8; lw a2,4(gp)"),
            ("lw a0,0(a5); addi a4,a5,8; lw a1,0(a5); lw a2,4(a4)", "mv gp,a5; lw a0,0(gp); addi a4,a5,8; lw a1,0(gp); lw a2,12(gp)"),
            ("lw a0,2000(a5); addi a5,a5,64; lw a2,2000(a5)", "mv gp,a5; lw a0,2000(gp); addi a5,a5,64; lw a2,2000(a5)"),
            ("lw a0,0(a5); call f; lw a1,4(a5)", None),
            ("sw a5,0(a5); sw a5,4(a5)", "mv gp,a5; sw a5,0(gp); sw a5,4(gp)"),
            ("addi a5,sp,16; lw a0,4(a5)", "addi a5,sp,16; lw a0,20(sp)"),
            ("addi s0,sp,32; call f; lw a0,-20(s0)", "addi s0,sp,32; call f; lw a0,12(sp)"),
            ("addi t0,sp,32; call f; lw a0,-20(t0)", None),
            ("addi a5,sp,16; addi sp,sp,-32; lw a0,0(a5)", "addi a5,sp,16; addi sp,sp,-32; lw a0,48(sp)"),
            ("addi a5,sp,16; mv sp,s0; lw a0,0(a5)", None),
        ]
        for text, wanted in rows:
            found = lines(with_shared_masks(code("f: " + text + "; ret"), ADDRESSES))
            self.assertEqual(found, lines(code("f: " + (wanted or text) + "; ret")), text)

    def test_two_bases(self):
        """The base that is accessed next stays."""
        text = "f: lw a0,0(a5); lw a1,0(a4); lw a2,0(a3); lw a3,4(a5); lw a4,4(a4); ret"
        self.assertEqual(self.shared(text), lines(code(
            "f: mv gp,a5; lw a0,0(gp); mv tp,a4; lw a1,0(tp); lw a2,0(a3); lw a3,4(gp); lw a4,4(tp); ret")))

    def test_blocks(self):
        """A block holds what each way to it does."""
        text = "f: lw a0,0(a5); beqz a0,.a; lw a1,4(a5); .a: lw a2,8(a5); ret"
        self.assertEqual(self.shared(text), lines(code(
            "f: mv gp,a5; lw a0,0(gp); beqz a0,.a; lw a1,4(gp); .a: lw a2,8(gp); ret")))
        text = "f: beqz a0,.a; lw a1,4(a5); .a: lw a2,8(a5); ret"
        self.assertIn("lw a2, 8(a5)", self.shared(text))
        text = "f: beqz a0,.a; addi a4,a5,4; lw a1,4(a5); .a: lw a2,8(a5); ret"
        self.assertIn("lw a2, 8(a5)", self.shared(text))

    def test_loops(self):
        """The ways that lead back to a loop's beginning are ways to it."""
        inner = ".b: addi a3,a3,-1; bnez a3,.b; "
        rows = [
            ("lw a1,4(a5); .a: lw a2,8(a5); bnez a2,.a", "mv gp,a5; lw a1,4(gp); .a: lw a2,8(gp); bnez a2,.a"),
            ("lw a1,4(a5); .a: lw a5,8(a5); bnez a5,.a", "mv gp,a5; lw a1,4(gp); .a: lw a5,8(a5); bnez a5,.a"),
            ("lw a1,4(s1); .a: lw a2,8(s1); call g; bnez a0,.a", "mv gp,s1; lw a1,4(gp); .a: lw a2,8(s1); call g; bnez a0,.a"),
            (".a: lw a2,8(a5); bnez a2,.a", None),
            ("lw a1,4(a5); " + inner + "lw a2,8(a5)", "mv gp,a5; lw a1,4(gp); " + inner + "lw a2,8(gp)"),
        ]
        for text, wanted in rows:
            self.assertEqual(self.shared(f"f: {text}; ret"), lines(code(f"f: {wanted or text}; ret")), text)

    def test_set_again(self):
        """What the passes before have put there stays if it isn't held already."""
        text = "f: mv gp,a5; lw a0,0(gp); lw a1,4(a5); lw a2,8(a5); mv gp,a5; lw a3,4(gp); ret"
        self.assertEqual(self.shared(text, ("gp",)), lines(code(
            "f: mv gp,a5; lw a0,0(gp); mv gp,a5; lw a1,4(gp); lw a2,8(gp); lw a3,4(gp); ret")))

    def test_registers_of_others(self):
        """A register that a loop has in use, or the program, isn't taken."""
        text = "f: mv gp,a4; .a: lw a0,0(a5); lw a1,4(a5); lw a2,0(gp); bnez a2,.a; ret"
        self.assertIn("mv tp, a5", self.shared(text))
        self.assertEqual(self.shared(text, ("gp",)), lines(code(text)))


class Repeating(unittest.TestCase):
    def test_rows(self):
        rows = [
            ("lw a0,0(a1); lw a2,4(a1); sb a0,-3(a1)", "lw a0,0(a1); lw a2,4(t4); sb a0,-3(t4)"),
            ("lw a0,0(a1); bnez a0,.b; lw a2,4(gp); sw a0,8(sp); lw a3,8(a1); .b: ret",
             "lw a0,0(a1); bnez a0,.b; lw a2,4(gp); sw a0,8(sp); lw a3,8(t4); .b: ret"),
            ("lw a0,0(a1); lw a1,4(a1); lw a1,4(a1)", "lw a0,0(a1); lw a1,4(t4); lw a1,4(a1)"),
            ("lw a1,0(a1); lw a2,0(a1)", None),
            ("lw a0,0(a1); addi a1,a1,4; lw a2,0(a1)", None),
            ("lw a0,0(a1); lw a2,0(a3); lw a2,4(a1)", None),
            ("lw a0,0(a1); .b: lw a2,0(a1)", "lw a0,0(a1); .b: lw a2,0(t4)"),
            ("lw a0,0(a1); .b: lw a2,0(a1); bnez a2,.b; ret", "lw a0,0(a1); .b: lw a2,0(t4); bnez a2,.b; ret"),
            ("lw a0,0(a1); .b: lw a1,0(a1); bnez a1,.b; ret", None),
            ("lw a0,0(a1); .b: lw a2,0(a1); lw a2,0(a2); bnez a2,.b; ret", None),
            ("beqz a0,.a; lw a0,0(a1); j .b; .a: lw a2,0(a1); .b: lw a3,0(a1); ret",
             "beqz a0,.a; lw a0,0(a1); j .b; .a: lw a2,0(a1); .b: lw a3,0(t4); ret"),
            ("beqz a0,.b; lw a0,0(a1); .b: lw a3,0(a1); ret", None),
            ("mv gp,a1; lw a0,0(gp); lw a2,4(a1); mv gp,a1; lw a3,0(gp)", "mv gp,a1; lw a0,0(gp); lw a2,4(gp); lw a3,0(gp)"),
            ("mv gp,a1; mv a3,a1; addi a1,a1,4; lw a2,4(a3)", "mv gp,a1; mv a3,a1; addi a1,a1,4; lw a2,4(gp)"),
            ("mv gp,a1; mv a3,a2; lw a2,4(a3)", None),
            ("mv gp,a1; addi gp,gp,4; lw a0,0(gp); lw a2,4(a1)", None),
            ("mv gp,a1; call f; mv gp,a1; lw a0,0(gp)", None),
            ("lw a0,0(s1); call f; lw a2,0(s1)", None),
            ("lw a0,0(s1); jalr ra,0(a0); lw a2,0(s1)", None),
        ]
        for text, wanted in rows:
            self.assertEqual(lines(without_repeated_masks(code(text))), lines(code(wanted or text)), text)


class Hoisting(unittest.TestCase):
    def hoisted(self, text, registers=ADDRESSES):
        pieces = code(text)
        pieces = code(text)
        return lines(with_hoisted_masks(pieces, Names(), registers, largest_step(pieces)))

    def unchanged(self, text):
        self.assertEqual(self.hoisted(text), lines(code(text)), text)

    def test_base(self):
        self.assertEqual(self.hoisted("f: li a0,0; .a: add a0,a0,a1; lw a1,8(a5); bnez a1,.a; ret"), lines(code(
            "f: li a0,0; mv gp,a5; .a: add a0,a0,a1; lw a1,8(gp); bnez a1,.a; ret")))

    def test_pointer(self):
        """It's in the data register alone, and is set where the loop is left if it's read there."""
        loop = "f: li a0,0; .a: lw a4,0(a5); add a0,a0,a4; addi a5,a5,4; bne a5,a3,.a; "
        wanted = "f: li a0,0; mv gp,a5; .a: lw a4,0(gp); add a0,a0,a4; addi gp,gp,4; bne gp,a3,.a; "
        self.assertEqual(self.hoisted(loop + "ret"), lines(code(wanted + "ret")))
        self.assertEqual(self.hoisted(loop + "sub a1,a5,a3; ret"), lines(code(wanted + "mv a5,gp; sub a1,a5,a3; ret")))

    def test_way_out(self):
        text = "f: nop; .a: lw a4,0(a5); lw a3,4(a5); beqz a4,.b; addi a5,a5,8; j .a; nop; .b: mv a0,a5; ret"
        self.assertEqual(self.hoisted(text), lines(code(
            "f: nop; mv gp,a5; .a: lw a4,0(gp); lw a3,4(gp); beqz a4,leave..1; addi gp,gp,8; j .a; "
            "leave..1: mv a5,gp; j .b; nop; .b: mv a0,a5; ret")))

    def test_no_way_out(self):
        """Where control may go on from the function's end, no other place for a way out is there."""
        loop = "f: nop; .a: lw a4,0(a5); lw a3,4(a5); beqz a4,.b; addi a5,a5,8; bnez a3,.a; .b: mv a0,a5; call g"
        self.unchanged(loop)
        self.assertEqual(self.hoisted("f: nop; .a: lw a4,0(a5); bnez a4,.a; call g"), lines(code(
            "f: nop; mv gp,a5; .a: lw a4,0(gp); bnez a4,.a; call g")))

    def test_pointers_that_may_be_anywhere(self):
        """Two null pointers are equal, and masked they are not null. So a pointer that's compared before an access keeps its
        place, as one that moves far without an access does."""
        self.unchanged("f: li a0,0; .a: beq a5,a3,.b; lw a4,0(a5); addi a5,a5,4; add a0,a0,a4; j .a; .b: ret")
        self.unchanged("f: li a0,0; .a: addi a5,a5,4; beqz a4,.b; lw a4,0(a5); .b: bne a5,a3,.a; ret")
        self.unchanged("f: li a0,0; .a: lw a4,0(a5); addi a5,a5,2000; bne a5,a3,.a; ret")
        self.unchanged("f: li a0,0; .a: addi a5,a5,4; beqz a4,.b; lw a4,0(a5); lw a3,4(a5); .b: bnez a3,.a; ret")

    def test_changed_base(self):
        self.unchanged("f: li a0,0; .a: lw a5,0(a5); addi a0,a0,1; bnez a5,.a; ret")

    def test_loops_that_stay(self):
        """A call may change the data registers; nothing else may lead into the loop."""
        self.unchanged("f: li a0,0; .a: lw a0,8(s1); call f; bnez a0,.a; ret")
        self.unchanged("f: li a0,0; .a: lw a0,8(s1); .b: bnez a0,.a; ret; g: nop; j .b")
        self.unchanged("f: la a0,.b; .a: lw a0,8(s1); .b: bnez a0,.a; jr a0")

    def test_beginning_in_the_middle(self):
        self.assertEqual(self.hoisted("f: j .b; .a: addi a0,a0,1; .b: lw a1,8(a5); bnez a1,.a; ret"), lines(code(
            "f: mv gp,a5; j .b; .a: addi a0,a0,1; .b: lw a1,8(gp); bnez a1,.a; ret")))

    def test_jump_to_the_head(self):
        self.assertEqual(self.hoisted("f: beqz a0,.a; nop; .a: lw a1,8(a5); bnez a1,.a; ret"), lines(code(
            "f: beqz a0,enter..1; nop; enter..1: mv gp,a5; .a: lw a1,8(gp); bnez a1,.a; ret")))

    def test_two_stretches(self):
        self.assertEqual(self.hoisted("f: nop; .a: lw a1,8(a5); beqz a1,.b; .c: bnez a0,.a; ret; .b: addi a0,a0,1; j .c"), lines(code(
            "f: nop; mv gp,a5; .a: lw a1,8(gp); beqz a1,.b; .c: bnez a0,.a; ret; .b: addi a0,a0,1; j .c")))

    def test_two_ways_to_the_middle(self):
        self.assertEqual(self.hoisted("f: beqz a0,.b; j .b; .a: addi a0,a0,1; .b: lw a1,8(a5); bnez a1,.a; ret"), lines(code(
            "f: beqz a0,enter..1; j enter..1; .a: addi a0,a0,1; .b: lw a1,8(gp); bnez a1,.a; ret; enter..1: mv gp,a5; j .b")))

    def test_sum(self):
        """It's made before the loop, and takes the steps of what it's made of."""
        self.assertEqual(self.hoisted("f: li a5,0; .b: add a4,a5,a2; lbu a4,3(a4); addi a5,a5,1; bnez a4,.b; ret"), lines(code(
            "f: li a5,0; add a4,a5,a2; mv gp,a4; .b: add a4,a5,a2; lbu a4,3(gp); addi a5,a5,1; addi gp,gp,1; bnez a4,.b; ret")))

    def test_sum_of_which_a_part_is_needed(self):
        """What making the sum writes has to be free before the loop."""
        self.unchanged("f: li a3,0; .b: add a0,a0,a3; add a3,a5,a2; lbu a4,3(a3); addi a5,a5,1; bnez a4,.b; ret")

    def test_loop_in_a_loop(self):
        found = self.hoisted("f: nop; .a: lw a2,0(a4); .b: add a2,a2,a3; lw a3,0(a5); bnez a3,.b; sw a2,4(a4); addi a4,a4,8; "
                             "bnez a2,.a; ret")
        self.assertEqual(found, lines(code(
            "f: nop; mv tp,a4; .a: lw a2,0(tp); mv gp,a5; .b: add a2,a2,a3; lw a3,0(gp); bnez a3,.b; "
            "sw a2,4(tp); addi tp,tp,8; bnez a2,.a; ret")))

    def test_distances(self):
        [loop] = loops_of(code("f: nop; .a: lw a4,0(a5); beqz a4,.b; addi a5,a5,4; .b: addi a5,a5,4; bnez a4,.a; ret"), ())
        self.assertEqual(distances(loop, "a5", 8, FAR), [FAR, FAR, 0, 0, 4, 4, 8])
        self.assertEqual(distances(loop, "a5", 8, 0), [8, 8, 0, 0, 4, 4, 8])
        self.assertEqual(distances(loop, "a5", 4, 0), [FAR, FAR, 0, 0, 4, 4, FAR])


class Deriving(unittest.TestCase):
    def test_rows(self):
        rows = [  # the loop's pieces, and the steps of the last one's base, or None where it doesn't move by steps
            ("addi a1,a1,1; add a3,a1,a2; lw a0,0(a3)", {0: 1}),
            ("addi a1,a1,1; add a3,a1,a1; lw a0,0(a3)", {0: 2}),
            ("addi a1,a1,-1; slli a3,a1,2; add a3,a2,a3; lw a0,0(a3)", {0: -4}),
            ("addi a1,a1,1; sub a3,a2,a1; lw a0,0(a3)", {0: -1}),
            ("addi a1,a1,1; addi a2,a2,4; add a3,a1,a2; addi a3,a3,100; lw a0,0(a3)", {0: 1, 1: 4}),
            ("addi a1,a1,1; sub a3,a1,a1; add a3,a2,a3; lw a0,0(a3)", {}),
            ("add a3,zero,a1; lw a0,0(a3)", {}),
            ("addi a1,a1,1; .a: add a3,a1,a2; .b: lw a0,0(a3)", None),
            ("addi a1,a1,1; add a3,a1,a2; addi a1,a1,1; lw a0,0(a3)", None),
            ("addi a1,a1,1; slli a3,a1,9; lw a0,0(a3)", None),
            ("xori a1,a1,1; add a3,a1,a2; lw a0,0(a3)", None),
            ("addi a1,a1,1; mul a3,a1,a2; lw a0,0(a3)", None),
            ("addi a1,a1,1; add a3,a1,gp; lw a0,0(a3)", None),
        ]
        for text, wanted in rows:
            body = code(text)
            found = derived(body, len(body) - 1, 256)
            self.assertEqual(found and found.steps, wanted, text)

    def test_accesses(self):
        """Those in the same run, up to where the base is another."""
        body = code("addi a1,a1,1; add a3,a1,a2; lw a0,0(a3); lw a4,0(a5); lw a3,4(a3); lw a4,8(a3)")
        found = derived(body, 2, 256)
        self.assertEqual((found.accesses, found.temporary(), lines(found.made)), ([2, 4], {"a3"}, ["add a3, a1, a2"]))


class Pairing(unittest.TestCase):
    def test_rows(self):
        rows = [
            ("nop; xori a1,a1,1; addi a2,a2,1; xori a3,a3,1", "nop; addi a2,a2,1; xori a1,a1,1; xori a3,a3,1"),
            ("xori a1,a1,1; nop; xori a3,a3,1; nop; lw a0,4(sp); nop", "xori a1,a1,1; nop; nop; xori a3,a3,1; lw a0,4(sp); nop"),
            ("nop; xori a1,a1,1; addi a1,a1,1", None),
            ("nop; sw a1,0(gp); lw a0,4(sp)", None),
            ("nop; xori a1,a1,1; .a: nop", None),
            ("nop; addi gp,gp,64; lw a1,0(gp); addi a2,a2,1", "nop; addi a2,a2,1; addi gp,gp,64; lw a1,0(gp)"),
            ("nop; mv gp,a5; lw a1,0(gp); addi gp,gp,4; lw a2,0(gp)", None),
            ("nop; " + "xori a1,a1,1; " * 32 + "addi a2,a2,1", None),
        ]
        for text, wanted in rows:
            self.assertEqual(lines(with_pairs(code(text))), lines(code(wanted or text)), text)


class Targeting(unittest.TestCase):
    def test_rows(self):
        made = "add a5,a4,a5; mv gp,a5; lw a0,0(gp); "
        rows = [
            (made + "lw a1,4(gp); ret", "add gp,a4,a5; lw a0,0(gp); lw a1,4(gp); ret"),
            ("lw a5,4(sp); mv gp,a5; lw a0,0(gp); lw a5,4(gp); mv a1,a5; ret", "lw gp,4(sp); lw a0,0(gp); lw a5,4(gp); mv a1,a5; ret"),
            (made + "addi a5,a5,4; sub a1,a5,a4; ret", "add gp,a4,a5; lw a0,0(gp); addi a5,gp,4; sub a1,a5,a4; ret"),
            (made + "bnez a5,.a; .a: ret", "add gp,a4,a5; lw a0,0(gp); bnez gp,.a; .a: ret"),
            (made + "bnez a0,.a; .a: mv a0,a5; ret", None),
            (made + "mv gp,a3; lw a1,0(gp); mv a1,a5; ret", None),
            ("add a0,a0,a1; mv gp,a0; lw a1,0(gp); ret", None),
            ("add a0,a0,a1; mv gp,a0; lw a1,0(gp); call g; ret; g: sub a0,a0,a1; ret", None),
            ("add a5,a4,a5; mv a1,a5; mv gp,a5; lw a0,0(gp); ret", None),
            ("add a5,a4,a5; lw a1,0(gp); mv gp,a5; lw a0,0(gp); ret", None),
            ("add a5,a4,a5; call g; mv gp,a5; lw a0,0(gp); ret; g: ret", None),
            ("la a5,x; mv gp,a5; lw a0,0(gp); ret", None),
            ("li a5,16384; mv gp,a5; lw a0,0(gp); ret", None),
            ("addi a5,a5,4; mv gp,a5; lw a0,0(gp); ret", None),
        ]
        for text, wanted in rows:
            self.assertEqual(lines(with_targets(code("f: " + text))), lines(code("f: " + (wanted or text))), text)

    def test_before_a_loop(self):
        """There the base may be any number."""
        loop = "mv gp,a5; .a: lw a0,0(gp); bnez a0,.a; ret"
        self.assertEqual(lines(with_targets(code("f: add a5,a4,a5; " + loop))), lines(code("f: add gp,a4,a5; " + loop[10:])))
        text = "f: add a5,a4,a5; mv gp,a5; bnez a5,.a; .a: lw a0,0(gp); ret"
        self.assertEqual(lines(with_targets(code(text))), lines(code(text)))
