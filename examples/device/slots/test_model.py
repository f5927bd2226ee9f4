"""A walk of the host with slots beside a model. WALK=SEED,STEPS gives another one. It has as many steps, however long they
take."""
import os
import sys
import tempfile
import unittest

sys.dont_write_bytecode = True
import device
from walked_images import A0, KINDS, NEXT, NOP, S1, UNITS, Image, addi, lui
from model import Entries
from walk import BASES, DATA, Walk

SEED, STEPS = (int(number) for number in os.environ.get("WALK", "1,2000").split(","))


class Models(unittest.TestCase):
    def test_entries(self):
        """The checker of entries by itself: of an image in words whose place an image in bundles takes."""
        words, bundles = (Image(number, image_format, "reports", BASES[0], 256, DATA[number])
                          for number, image_format in ((0, "words"), (1, "1")))
        entries = Entries()
        self.assertIsNone(entries.place(0, words))
        self.assertIsNone(entries.fault(0, BASES[0] + 4))
        self.assertIn("no unit begins there", entries.fault(0, BASES[0] + 2))
        self.assertIn("slot 0's image stands there", entries.fault(1, BASES[0]))
        self.assertIn("over slot 0's", entries.place(1, bundles))
        entries.drop(0)
        self.assertIsNone(entries.place(1, bundles))
        self.assertIsNone(entries.fault(1, BASES[0] + 16))
        self.assertIn("no unit begins there", entries.fault(0, BASES[0] + 4))
        self.assertIn("slot 1's image stands there", entries.fault(0, BASES[0] + 16))
        self.assertIn("no image", entries.fault(0, BASES[0] + 256))
        entries.drop(1)
        self.assertIn("was dropped", entries.fault(1, BASES[0] + 16))

    @unittest.skipUnless(os.access(device.SFI, os.X_OK), f"{device.SFI} isn't built")
    def test_images(self):
        """What is sent is accepted, but for those that have to be refused."""
        for image_format in UNITS:
            for kind in KINDS:
                verdict = device.verdict_of(Image(1, image_format, kind, BASES[0], 512, DATA[0]).bytes())
                self.assertEqual(verdict.split(" sandbox=")[0],
                                 "refused findings=1 first=V1" if kind == "refused" else "accepted", image_format)


class Hidden(Image):
    """Once it has reported, an instruction stands in the middle of another, by which the code after it stores at slot 2's
    data."""
    MIDDLE = NEXT * 16 + 4
    PAIR = 0x5dfd  # c.li x27, -1, as the upper half of `lui x5`

    def bundle(self, number):
        return {NEXT: [0x02b70001, 1 << 16 | self.PAIR, lui(A0, 0x41414), NOP],
                NEXT + 1: [lui(S1, DATA[2] + 0x800 >> 12), addi(S1, S1, DATA[2]), NOP, NOP],
                NEXT + 2: self.stores(NEXT + 2)}.get(number) or super().bundle(number)


class OnDevice(unittest.TestCase):
    def setUp(self):
        why = device.missing()
        if why:
            self.skipTest(why)
        room = tempfile.TemporaryDirectory()
        self.addCleanup(room.cleanup)
        self.device = device.Device(os.path.join(room.name, "virt"), memory=os.path.join(room.name, "memory"))
        self.addCleanup(self.device.close)

    def test_place_that_a_neighbour_gets(self):
        """A version in words is dropped, and one in bundles comes to its place: no unit of the first is an entry of it."""
        for image_format in ("1", "2"):
            silent = Image(1, "words", "silent", BASES[0], 256, DATA[0])
            hidden = Hidden(2, image_format, "reports", BASES[0], 256, DATA[1])
            with self.subTest(image_format=image_format):
                self.assertEqual(device.verdict_of(hidden.bytes()), "accepted")
                self.assertRegex(self.device.update(0, silent.bytes()), "^slot=0 started: version=1 on trial")
                self.assertRegex(self.device.next_line(), "^slot=0 no report: version=1 on trial trap=Killed")
                self.assertRegex(self.device.update(1, hidden.bytes()), "^slot=1 started: version=1 on trial")
                self.assertRegex(self.device.stopped(1), f"^slot=1 is: version=1 exit={0x41414000} ")
                before = self.device.ask("sums")
                answers = {self.device.call(0, BASES[0] + offset) for offset in (Hidden.MIDDLE, *range(0, 256, 4))}
                self.assertEqual(self.device.ask("sums"), before)
                self.assertEqual(answers, {"no"})
            self.device.cut_power()

    def test_walk(self):
        walk = Walk(self.device, SEED)
        for _ in range(STEPS):
            walk.step()
        walk.look()
        self.assertGreater(walk.entered, STEPS // 100)  # calls that were let in
        self.assertGreater(walk.crossed, STEPS // 50)   # places that came from one slot to another


if __name__ == "__main__":
    unittest.main()
