"""Tests of what exceptions need: the ways that lead from calls to where they are handled, and the frames up to there."""
import unittest

from suygapid.passes.landings import labels, with_lengths
from suygapid.passes.rewriting import PASSES, rewritten
from suygapid.passes.typed import WORDS

THROWING = """\
	.text
	.globl f
f:
.LFB0:
	.cfi_startproc
	.cfi_personality 0x9b,DW.ref.__gxx_personality_v0
	.cfi_lsda 0x1b,.LLSDA0
	addi	sp,sp,-16
	.cfi_def_cfa_offset 16
	sw	ra,12(sp)
	sw	s1,8(sp)
	mv	s1,a0
.LEHB0:
	call	g
.LEHE0:
	beq	a0,zero,.L2
	lw	ra,12(sp)
	.cfi_remember_state
	.cfi_restore 1
	lw	s1,8(sp)
	.cfi_restore 9
	addi	sp,sp,16
	.cfi_def_cfa_offset 0
	jr	ra
.L2:
	.cfi_restore_state
	call	h
	ret
.L3:
	mv	a0,s1
	call	h
	.cfi_endproc
g:
	li	a0,1
	ret
	.section	.gcc_except_table,"aw",@progbits
.LLSDA0:
	.byte	0xff,0xff,0x3,13
	.4byte	.LEHB0-.LFB0
	.4byte	.LEHE0-.LEHB0
	.4byte	.L3-.LFB0
	.byte	0
"""


class Landings(unittest.TestCase):
    def test_labels(self):
        named, landed = labels([".LEHB0-.LFB0", ".LEHE0-.LEHB0", ".L3-.LFB0", "0", "DW.ref._ZTIi-."])
        self.assertEqual(named, {".LEHB0", ".LEHE0", ".LFB0", ".L3"})
        self.assertEqual(landed, {".L3"})

    def test_what_a_handler_reads_is_kept(self):
        """The register is read where an exception leads to alone, whose label nothing in the code speaks of."""
        lines = rewritten("a.s", THROWING, PASSES, WORDS).splitlines()
        begin, end = lines.index(".LEHB0:"), lines.index(".LEHE0:")
        self.assertEqual(lines[begin + 1:end], ["\tjal ra, g"])
        self.assertIn("\tc.mv s1, a0", lines[:begin])
        self.assertIn(".L3:", lines)

    def test_a_frame_is_remembered_before_it_is_left(self):
        lines = rewritten("a.s", THROWING, PASSES, WORDS).splitlines()
        self.assertLess(lines.index("\t.cfi_remember_state"), lines.index("\t.cfi_def_cfa_offset 0"))
        self.assertIn("\t.cfi_sections .eh_frame, .debug_frame", lines)

    def test_a_frame_begins_at_its_label(self):
        """The first access is on a base that a pass puts in a data register at the function's beginning."""
        text = THROWING.replace("\taddi\tsp,sp,-16\n", "\tlw\ta5,8(a0)\n\taddi\tsp,sp,-16\n").replace(
            "\tmv\ts1,a0\n", "\tmv\ts1,a0\n\tlw\ta4,12(a0)\n\tlw\ta5,16(a0)\n\tsw\ta4,20(a0)\n")
        lines = rewritten("a.s", text, PASSES, WORDS).splitlines()
        begin = lines.index(".LFB0:")
        self.assertEqual(lines[begin + 1], "\t.cfi_startproc")
        self.assertEqual(lines[begin + 4:begin + 6], ["\tand x31, a0, x27", "\tor gp, x31, x26"])

    def test_lengths(self):
        """clang has two parts' lengths as differences, of which each gets three bytes."""
        table = ['\t.section\t".gcc_except_table.f$x","a",@progbits', "\t.p2align\t2", "\t.byte\t255", "\t.uleb128\t.Lbase-.Lref", ".Lref:",
                 "\t.byte\t3", "\t.uleb128\t.Lend-.Lbegin", ".Lbegin:", "\t.word\t.L1-.L2", "\t.byte\t5", ".Lend:", "\t.p2align\t2",
                 "\t.hidden\tx", ".Lbase:"]
        made = with_lengths(table)
        self.assertEqual(made[3], "\t.byte\t140, 128, 0")
        self.assertEqual(made[6], "\t.byte\t133, 128, 0")
        self.assertEqual([*made[:3], *made[4:6], *made[7:]], [*table[:3], *table[4:6], *table[7:]])


if __name__ == "__main__":
    unittest.main()
