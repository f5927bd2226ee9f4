"""Tests of the passes: `tools/unit_tests.py tools/suygapid/passes`. What is wanted follows
from docs/SOURCE.md, from the table of RV32C and from the calling convention."""
import unittest

from suygapid.passes.assembly import read_assembly
from suygapid.passes.clusters import best_clusters
from suygapid.passes.control import Blocks, weights
from suygapid.passes.dependences import needed_before
from suygapid.passes.facts import bits
from suygapid.passes.instructions import Converter, Op
from suygapid.passes.known import with_known_places
from suygapid.passes.liveness import Liveness, without_unread
from suygapid.passes.naming import Names
from suygapid.passes.ordering import Order
from suygapid.passes.packing import packed
from suygapid.passes.placement import FARTHEST, far_branches, places, with_near_branches
from suygapid.passes.pointing import with_pointing
from suygapid.passes.program import Mark
from suygapid.passes.sizes import expansions


def code(text):
    """Lines of assembly as code. A label that begins with a point is inside a function."""
    pieces = []
    for piece in read_assembly("a.s", text.replace("; ", "\n")):
        if hasattr(piece, "name"):
            pieces.append(Mark(piece.name, piece.name.startswith(".")))
        else:
            pieces += [Op(op.word, tuple(map(str, op.operands)), None) for op in Converter().convert(piece)]
    return pieces


def lines(pieces):
    """The source text of pieces, but for the lines that choose sizes, with a space after each comma."""
    return [f"{piece.name}:" if piece.is_mark else f"{piece.word} {', '.join(piece.operands)}".rstrip() for piece in pieces]


class Layout:
    """A layout with the offsets of labels."""

    def __init__(self, **offsets):
        self.offsets = offsets


class Sizes(unittest.TestCase):
    def test_rows(self):
        short, wide, masked = ((2, 4),), ((4,),), ((12,),)
        rows = [  # in the first format, in the second
            ("add a0,zero,t3", short, short), ("add a0,a0,a1", short, short), ("add a0,a1,a0", wide, wide),
            ("add a0,a0,zero", wide, wide), ("mv a0,a1", wide, wide), ("sub a0,a0,a5", short, short),
            ("sub t0,t0,a5", wide, wide), ("and a0,a0,t0", wide, wide), ("addi t0,t0,31", short, short),
            ("addi t0,t0,-33", wide, wide), ("addi a0,sp,1020", short, short), ("addi a0,sp,1024", wide, wide),
            ("addi t0,sp,16", wide, wide), ("li t0,-32", short, short), ("li t0,32", wide, wide),
            ("li a0,4096", short, short), ("li a0,4097", ((2, 4), (2, 4)), ((2, 4), (2, 4))),
            ("li a0,2048", ((2, 4), (4,)), ((2, 4), (4,))), ("lui a0,31", short, short), ("lui a0,32", wide, wide),
            ("lui a0,1048575", short, short), ("slli t0,t0,3", short, short), ("srli t0,t0,3", wide, wide),
            ("srai a0,a0,3", short, short), ("andi a0,a0,-32", short, short), ("andi a0,a0,255", wide, wide),
            ("xori a0,a0,1", wide, wide), ("mul a0,a0,a1", wide, wide), ("nop", short, short), ("ebreak", short, short),
            ("lw a0,4(a1)", masked, masked), ("sb a0,4(a1)", masked, masked), ("lw a0,252(sp)", masked, short),
            ("lw a0,256(sp)", masked, wide), ("sw t0,0(sp)", masked, short), ("lb a0,0(sp)", masked, wide),
            ("addi sp,sp,-16", short, masked), ("addi sp,sp,-1040", wide, masked), ("mv sp,s0", wide, masked),
            ("lw sp,4(sp)", masked, masked), ("ret", masked, masked), ("jr a5", masked, masked),
            ("jalr ra,0(a5)", masked, masked), ("jalr ra,8(a5)", ((16,),), ((16,),)), ("j x", wide, wide),
            ("beqz a0,x", wide, wide), ("la a0,x", ((4,), (4,)), ((4,), (4,))),
            ("la sp,x", ((4,), (4,)), ((12,), (12,))), ("fence", wide, wide),
        ]
        for text, first, second in rows:
            [op] = code(text)
            self.assertEqual((expansions(op, 1), expansions(op, 2)), (first, second), text)


class Control(unittest.TestCase):
    def test_weights(self):
        """A loop in a loop; what jumps back to a label that another way leads past is no loop."""
        pieces = code("f: li a0,1; .a: nop; .b: nop; bnez a0,.b; bnez a1,.a; ret")
        self.assertEqual(weights(pieces), [1, 1, 8, 8, 64, 64, 64, 8, 1])
        pieces = code("f: beqz a0,.b; .a: nop; .b: bnez a1,.a; ret")
        self.assertEqual(weights(pieces), [1, 1, 1, 1, 1, 1, 1])

    def test_loops(self):
        blocks = Blocks(code("f: .a: beqz a0,.c; .b: bnez a1,.b; j .a; .c: ret"))
        self.assertEqual([len(blocks.starts), blocks.loops()], [5, {1: {1, 2, 3}, 2: {2}}])


class Dependences(unittest.TestCase):
    def test_registers(self):
        rows = [("add a0,a1,a2", {"a1", "a2"}, {"a0"}), ("sw a0,4(a1)", {"a0", "a1"}, set()), ("lw a0,4(a1)", {"a1"}, {"a0"}),
                ("call f", set(), {"ra"}), ("ret", {"ra"}, set()), ("jr a5", {"a5"}, set()), ("beq a0,a1,x", {"a0", "a1"}, set()),
                ("jalr t0,0(a5)", {"a5"}, {"t0"}), ("mv zero,a1", {"a1"}, set()), ("lui a0,1", set(), {"a0"})]
        for text, read, written in rows:
            [op] = code(text)
            self.assertEqual((op.reads, op.writes), (read, written), text)

    def test_values(self):
        """What an instruction reads other than as the base of an address."""
        rows = [("lw a0,4(a1)", set()), ("sw a0,4(a1)", {"a0"}), ("sw sp,4(a1)", {"sp"}), ("sw a1,4(a1)", {"a1"}),
                ("sw a0,4(sp)", {"a0"}), ("addi a0,sp,4", {"sp"}), ("jalr ra,0(a5)", set()), ("jr a5", {"a5"})]
        for text, wanted in rows:
            [op] = code(text)
            self.assertEqual(op.values, wanted, text)

    def test_order(self):
        rows = [  # two instructions, and whether the second has to stay after the first
            ("li a0,1; li a1,1", False), ("li a0,1; mv a1,a0", True), ("mv a1,a0; li a0,1", True), ("li a0,1; li a0,2", True),
            ("lw a0,0(a2); lw a1,0(a3)", False), ("sw a0,0(a2); lw a1,0(a3)", True), ("lw a0,0(a2); sw a1,0(a3)", True),
            ("sw a0,0(a2); sw a1,4(a2)", False), ("sw a0,0(a2); sb a1,3(a2)", True), ("sh a0,2(a2); lbu a1,1(a2)", False),
            ("sw a0,0(sp); lw a1,8(zero)", False), ("sw a0,0(sp); lw a1,8(a0)", True), ("sw a0,8(zero); lw sp,4(sp)", True),
        ]
        for text, stays in rows:
            self.assertEqual(needed_before(code(text))[1] != set(), stays, text)

    def test_a_changed_base(self):
        self.assertEqual(needed_before(code("sw a0,0(a2); addi a2,a2,4; sw a1,4(a2)")), [set(), {0}, {0, 1}])

    def test_another_stack_pointer(self):
        [first, second] = code("sw a0,0(sp); lw a1,8(zero)")
        self.assertEqual(needed_before([Op(first.word, first.operands, None, pointed=True), second]), [set(), {0}])


class Placement(unittest.TestCase):
    @staticmethod
    def loop(count):
        """A loop of `count` stores, which take one bundle each."""
        return code(".top: " + "sw a0,0(a0); " * count + "bnez a0,.top")

    def test_places(self):
        pieces = code("f: nop; lw a0,0(a1); lw a0,4(sp); .a: ret; call f; la a0,f; nop")
        self.assertEqual(places(pieces, 1), [0, 0, 2, 16, 32, 32, 44, 48, 56])
        self.assertEqual(places(pieces, 2), [0, 0, 2, 14, 16, 16, 28, 32, 40])

    def test_reach(self):
        self.assertEqual(far_branches(self.loop(255)), set())
        far = with_near_branches(self.loop(258), Names())
        self.assertEqual(lines(far)[-3:], ["beqz a0, over..1", "j .top", "over..1:"])
        self.assertEqual(FARTHEST, 4094)


class Liveness_(unittest.TestCase):
    def test_call(self):
        """A call needs what the function reads, and gcc may count on a register that it doesn't
        write."""
        pieces = code("main: li t3,1; li a1,2; call f; mv a0,t3; ret; f: mv a0,a1; ret")
        live = Liveness(Blocks(pieces))
        self.assertEqual(live.before[3] & bits(("t3", "a1", "a2")), bits(("t3", "a1")))

    def test_unread(self):
        pieces = code("f: la a5,x; lw a4,0(zero); la a5,y; mv a0,a5; ret")
        self.assertEqual(lines(without_unread(Blocks(pieces))), ["f:", "lw a4, 0(zero)", "la a5, y", "mv a0, a5", "ret"])


class Known(unittest.TestCase):
    def improved(self, text, **offsets):
        return lines(with_known_places(code(text), Layout(**offsets)))

    def test_near(self):
        self.assertEqual(self.improved("f: la a5,x; lw a0,4(a5); ret", x=16), ["f:", "lw a0, 20(zero)", "ret"])

    def test_far(self):
        self.assertEqual(self.improved("f: la a5,x; lw a0,4(a5); ret", x=2044), ["f:", "la a5, x", "lw a0, 4(a5)", "ret"])

    def test_two_ways(self):
        text = "f: la a5,x; beqz a0,.a; la a5,y; .a: lw a0,0(a5); ret"
        self.assertIn("lw a0, 0(a5)", self.improved(text, x=16, y=32))

    def test_stack_pointer(self):
        """A store of the stack pointer may be on an object; a load of it stays on `sp`."""
        self.assertEqual(self.improved("f: la a5,x; sw sp,8(a5); mv sp,a5; lw sp,4(sp); ret", x=16)[1:],
                         ["la a5, x", "sw sp, 24(zero)", "mv sp, a5", "lw sp, 4(sp)", "ret"])

    def test_calls(self):
        text = "f: la s0,x; la a5,x; call g; lw a0,0(s0); lw a1,0(a5); ret; g: ret"
        self.assertEqual(self.improved(text, x=16)[4:6], ["lw a0, 16(zero)", "lw a1, 0(a5)"])


class Pointing(unittest.TestCase):
    def test_clusters(self):
        rows = [
            ("lw a0,0(a5); lw a1,4(a5)", [{0: 0, 1: 4}]),
            ("lw a0,0(a5); lw a1,4(a4)", []),
            ("lw a0,0(a5); lw a1,4(sp); lw a2,8(a5)", []),
            ("lw a0,0(a5); addi a5,a5,8; lw a2,-4(a5)", [{0: 0, 2: 4}]),
            ("lw a0,0(a5); lw a5,4(a5); lw a2,8(a5)", [{0: 0, 1: 4}]),
            ("lw a0,2000(a5); addi a5,a5,64; lw a2,2000(a5)", []),
            ("sw a5,0(a5); sw a5,4(a5)", [{0: 0, 1: 4}]),
            ("sw a0,0(a5); sw sp,4(a5)", []),
            ("sw sp,0(a5); sw a0,4(a5); sw a1,8(a5)", [{1: 4, 2: 8}]),
            ("sw a0,0(a5); sw sp,4(a5); sw a1,8(a5)", []),
            ("sw a0,0(a5); addi a1,sp,4; sw a1,8(a5)", []),
            ("sw a0,0(a5); mv a1,sp; sw a1,8(a5)", []),
        ]
        for text, wanted in rows:
            self.assertEqual([cluster.offsets for cluster in best_clusters(code(text))], wanted, text)

    def test_long_run(self):
        """Time and memory grow with the number of accesses alone: with its square they would be
        minutes and gigabytes."""
        text = "; ".join(f"sw a0,{4 * number % 2048}(a5)" for number in range(6000))
        [cluster] = best_clusters(code(text))
        self.assertEqual(len(cluster.offsets), 6000)
        text = "; ".join(f"sw a0,{number % 2048}(a5); addi a5,a5,1" for number in range(1500))
        offsets = [offset for cluster in best_clusters(code(text)) for offset in cluster.offsets.values()]
        self.assertGreater(len(offsets), 1400)
        self.assertTrue(all(-2048 <= offset <= 2047 for offset in offsets))

    def test_loop(self):
        found = with_pointing(code("f: li t0,1; .a: lw a4,0(a5); sw a4,4(a5); addi a5,a5,8; bne a5,a3,.a; mv a0,a4; ret"), Names())
        self.assertEqual(lines(found), [
            "f:", "li t0, 1", "point..1:", "mv t0, sp", ".a:", "mv sp, a5", "lw a4, 0(sp)", "sw a4, 4(sp)", "addi a5, a5, 8",
            "bne a5, a3, .a", "mv sp, t0", "mv a0, a4", "ret"])

    def test_stored_stack_pointer(self):
        """A loop that stores the stack pointer keeps it, at any place of the store."""
        for body in ("sw sp,0(a5); sw a4,4(a5); sw a4,8(a5)", "sw a4,0(a5); sw a4,4(a5); sw sp,8(a5)"):
            pieces = code(f"f: li t0,1; .a: {body}; addi a5,a5,12; bne a5,a3,.a; ret")
            self.assertEqual(lines(with_pointing(pieces, Names())), lines(pieces))

    def test_no_register_of_a_caller(self):
        """The function writes no register that is free, and gcc lets callers count on each other
        one."""
        text = "main: call f; ret; f: .a: lw a4,0(a5); sw a4,4(a5); addi a5,a5,8; bne a5,a3,.a; ret"
        self.assertEqual(lines(with_pointing(code(text), Names())), lines(code(text)))

    def test_way_out(self):
        text = "f: li t0,1; .a: lw a4,0(a5); sw a4,4(a5); beqz a4,.b; j .a; .b: ret"
        found = lines(with_pointing(code(text), Names()))
        self.assertEqual(found[-3:], ["leave..1:", "mv sp, t0", "j .b"])
        self.assertIn("beqz a4, leave..1", found)


class Packing(unittest.TestCase):
    def packed(self, text, image_format=2):
        return lines(packed(code(text), image_format, Names()))

    def test_wide_in_place_of_nops(self):
        """Six instructions of 2 bytes before a label become four of 2 and two of 4."""
        found = self.packed("f: " + "slli a0,a0,1; " * 6 + ".a: bnez a0,.a; ret")
        self.assertEqual(found.count("nop"), 0)
        self.assertEqual(found.count("slli a0, a0, 1"), 6)

    def test_order(self):
        """8, 12 and 12 bytes fit in two bundles as 12 + 4 and 16."""
        found = self.packed("f: xori a0,a1,1; xori a2,a1,2; lw a3,0(a1); xori a4,a1,3; xori a5,a1,4; xori a6,a1,5; "
                            ".a: beqz a5,.a; j .a")
        self.assertEqual(found.count("nop"), 0)

    def test_as_good(self):
        """Of four loads that nothing needs one is tried first, and of two that others need each."""
        kinds = ["load"] * 4 + ["sum"] * 2
        self.assertEqual(Order(code("lw a0,0(s0); lw a1,4(s0); lw a2,8(s0); lw a3,12(s0)"), kinds[:4]).ready(0, 0), [0])
        ops = code("lw a0,0(s0); lw a1,4(s0); add a4,a0,a0; add a5,a1,a1")
        self.assertEqual(Order(ops, kinds[2:]).ready(0, 0), [0, 1])
        self.assertEqual(Order(ops, kinds[2:]).ready(1, 0), [0, 1])

    def test_long_run(self):
        text = "; ".join(f"lw a{number % 4},{4 * number % 2048}(sp)" for number in range(1500))
        self.assertEqual(len(self.packed(text)), 1500)

    def test_copies(self):
        self.assertIn("add a0, zero, a1", self.packed("f: mv a0,a1; ret"))

    def test_turned(self):
        found = self.packed("f: bnez a0,.c; .a: addi a1,a1,1; bnez a1,.a; .c: ret")
        self.assertEqual(found[:4], ["f:", "beqz a0, .a", "j .c", ".a:"])

    def test_what_does_not_run_is_not_filled(self):
        self.assertEqual(self.packed("f: j .a; .b: nop; ret; .a: j .b"), ["f:", "j .a", ".b:", "nop", "ret", ".a:", "j .b"])
